"""Deep expressions: what the recursive calls say of one, on a small stack.

An expression is the constant 3 under layers of one form: a negation, or a sum, difference or product whose other
operand, on the left or on the right, is a constant that changes nothing.
"""
import json
import resource
import subprocess

from .runs import SECONDS

# How deep an expression each call bears on a stack of STACK bytes: docs/model/PROMISES.md states it. An even depth, since
# negations and differences on the right then leave the value as it is.
DEPTH, STACK = 500, 1 << 20

FORMS = ["neg", *(f"{kind}-{side}" for kind in ("add", "sub", "mul") for side in ("left", "right"))]

# What the recursive calls write, by the kind of what they are made on; each drops what it made, and the expression is
# dropped in the end. The local lookup of the expression sends 3 on each of two rows, with nothing that provides it. At
# the alpha 5 the fractions of its rows are 1/(5 - 3) = 4: the accumulator is 0 and then 4, and the terminal is 1 modulo
# 7. Of the batch the prefix is 5 + 2 = 0, and the sum of 1/(0 - 3) = 2 twice is not zero: no witness is accepted. It has
# n = 1 message, and k = 1 is unbalanced; k * (k - 1) is 0, and n + k - 1 is 1. The degree of a constant is 0, and
# that of a lookup of constants, as of two that are packed into one, is 1: that of the product with the fraction.
GENERATED = (
    "Ok((RowMajorMatrix {{ values: [F7 {{ value: 0 }}, F7 {{ value: 4 }}, F7 {{ value: 4 }}, F7 {{ value: 4 }}], "
    "width: 2 }}, Some(LookupTerminal(F7 {{ value: 1 }}))))"
)
ANSWERS = {
    "expression": {
        "serialize": "Ok({written})",
        "fmt": "{printed}",
        "copy": "Ok({printed})",
        "degree_multiple": "Ok(0)",
        "degree_multiple_with_transition": "Ok(0)",
        "fits": "true",
        "resolve": "Ok({printed})",
        "resolve_over": "Ok({printed})",
    },
    "lookup": {
        "constraint_degree": "Ok(1)",
        "constraint_degree_with_transition": "Ok(1)",
        "generate_permutation": GENERATED,
        "generate_counted": GENERATED,
        "LookupFault::text": 'Ok("Lookup mismatch (instance 0 local lookup 0): tuple [3] has net multiplicity 2 at '
        'instance 0 lookup 0 row 0; instance 0 lookup 0 row 1")',
        "soundness_count": "Ok(SoundnessCount {{ messages: 1, unbalanced: 1, bad_betas: 0, accepting_alphas: Some(1) }})",
        "some_witness": "Ok(false)",
        "check_witness": "Err(TerminalSumNonZero)",
    },
    # of the expression and of 1, on a bus: they are packed into one
    "two lookups": {"pack_same_bus": "Ok(1)"},
    "expression over the extension": {
        "fmt, ext": "{printed}",
        "copy, ext": "Ok({printed})",
        "degree_multiple, ext": "Ok(0)",
        "degree_multiple_with_transition, ext": "Ok(0)",
    },
}
# The calls that are made twice on what they are made on.
TWICE = ("check_witness",)


def node_of(form):
    """The name of the node."""
    return form.partition("-")[0].capitalize()


def layered(form, depth, bottom, beside, start, between, end):
    """A text of so many layers over another. A node begins with `start`, and ends with `end`."""
    if form.endswith("left"):
        return start * depth + bottom + (between + beside + end) * depth
    if form.endswith("right"):
        return (start + beside + between) * depth + bottom + end * depth
    return start * depth + bottom + end * depth


def printed(form, depth):
    """The expression as `Debug` prints it."""
    leaf = "Leaf(Constant(F7 {{ value: {} }}))".format
    beside = leaf(1 if form.startswith("mul") else 0)
    return layered(form, depth, leaf(3), beside, f"{node_of(form)}(", ", ", ")")


def written(form, depth):
    """The expression as JSON."""
    leaf = '{{"Leaf":{{"Constant":{}}}}}'.format
    beside = leaf(1 if form.startswith("mul") else 0)
    opened, closed = ("", "") if form == "neg" else ("[", "]")
    return layered(form, depth, leaf(3), beside, f'{{"{node_of(form)}":{opened}', ",", f"{closed}}}")


def wanted(kind, form, depth):
    """The lines that the recursive calls write."""
    texts = {"printed": printed(form, depth), "written": json.dumps(written(form, depth))}
    lines = {call: f"{call}: {answer.format(**texts)}" for call, answer in ANSWERS[kind].items()}
    return [line for call, line in lines.items() for _ in range(2 if call in TWICE else 1)]


def bears(program, kind, form, depth):
    """Whether the calls on an expression of this form and depth answer what they have to, on a small stack."""
    words = [program, kind, form, str(depth)]
    limit = lambda: resource.setrlimit(resource.RLIMIT_STACK, (STACK, STACK))  # noqa: E731
    how = {"stdin": subprocess.DEVNULL, "stderr": subprocess.DEVNULL, "stdout": subprocess.PIPE, "timeout": SECONDS}
    ran = subprocess.run(words, preexec_fn=limit, check=False, **how)
    lines = [it for it in ran.stdout.decode().splitlines() if it.partition(": ")[0] in ANSWERS[kind]]
    return ran.returncode == 0 and lines == wanted(kind, form, depth)


def depth_swept(_shim, program, kind, _later):
    """The calls on expressions of each form, as deep as docs/model/PROMISES.md states, and of two layers."""
    runs = [(form, depth) for form in FORMS for depth in (2, DEPTH)]
    failed = [(form, depth) for form, depth in runs if not bears(program, kind, form, depth)]
    return len(runs), [f"{kind}: {form} {depth} deep is not borne" for form, depth in failed], {}


def greatest_depth(program, kind, form):
    """The greatest even depth that all calls bear."""
    low, high = 0, 1 << 19
    while low + 1 < high:
        middle = (low + high) // 2
        low, high = (middle, high) if bears(program, kind, form, 2 * middle) else (low, middle)
    return 2 * low


def print_depths(program):
    """Prints the greatest depth of each kind, of all forms and of each."""
    for kind in ANSWERS:
        depths = {form: greatest_depth(program, kind, form) for form in FORMS}
        of_each = ", ".join(f"{form} {depth}" for form, depth in depths.items())
        print(f"{kind}: {min(depths.values())} ({of_each})", flush=True)
