"""The built programs, run with requests for memory refused."""
import collections
import os
import subprocess
import tempfile

from kit import kit

HERE = os.path.dirname(os.path.realpath(__file__))
# Any time that no run comes near.
SECONDS = 120

# A run of a program: its status, how many requests for memory it made, how many of them were refused, the blocks that
# it did not free, the greatest number of bytes that it held at once, and what it wrote.
Ran = collections.namedtuple("Ran", "status requests refused live peak output errors")


def made_shim(folder):
    """The compiled shim, made by the kit's own compiler and linker."""
    tools, made = f"{kit().KIT}/toolchain/bin", f"{folder}/refusing"
    flags = ["--target=x86_64-unknown-linux-gnu", "-O2", "-fPIC", "-ffreestanding", "-fno-builtin"]
    warnings = ["-Wall", "-Wextra", "-Werror"]
    compiler = [f"{tools}/clang", *flags, *warnings, "-c", f"{HERE}/refusing.c", "-o", f"{made}.o"]
    subprocess.run(compiler, check=True)
    linker = [f"{tools}/ld.lld", "-shared", "-nostdlib", "-o", f"{made}.so", f"{made}.o"]
    subprocess.run(linker, check=True)
    return f"{made}.so"


def swept(shim, program, words, given=b"", later=False, last=None):
    """The runs of a program: with all memory, and then with each request refused in turn, up to the number `last`.
    Where that is 0 nothing is refused, whatever `later` is."""
    with (
        tempfile.TemporaryFile() as report,
        tempfile.TemporaryFile() as output,
        tempfile.TemporaryFile() as errors,
        tempfile.TemporaryFile() as entered,
    ):
        entered.write(given)
        entered.flush()
        env = {"LD_PRELOAD": shim, "REFUSE_REPORT": str(report.fileno()), "REFUSE_LATER": str(int(later))}
        env.update({} if last is None else {"REFUSE_LAST": str(last)})
        streams = {"stdin": entered, "stdout": output, "stderr": errors, "pass_fds": [report.fileno()]}
        ran = subprocess.run([program, *words], check=False, env=env, timeout=SECONDS, **streams)
        # to say why: there is no report then, so no run either
        if ran.returncode:
            raise RuntimeError(f"{program} {words}: the shim ended with status {ran.returncode}")
        files = []
        for file in (report, output, errors):
            file.seek(0)
            files.append(file.read())
    return list(runs_of(*files))


def runs_of(report, output, errors):
    """The runs that the shim reports, each with its part of what was written."""
    ends = (0, 0)
    for line in report.decode().splitlines():
        status, *numbers, output_end, errors_end = map(int, line.split())
        status = os.waitstatus_to_exitcode(status)
        yield Ran(status, *numbers, output[ends[0] : output_end], errors[ends[1] : errors_end])
        ends = (output_end, errors_end)
