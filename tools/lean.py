"""The kit's checked run, `rt try`, without what takes most of its time."""
import os
import shlex

from kit import kit

# The kit's compiler, but without the address sanitizer, which takes most of its time.
CLANG = """#!/bin/sh
for word; do
  shift
  [ "$word" = -fsanitize=address ] || set -- "$@" "$word"
done
exec {clang} "$@"
"""
# The kit's linker, which leaves a copy of what it links.
LINKER = """#!/bin/sh
{linker} "$@" && cp program {kept}
"""


def write(path, text, mode=0o644):
    with open(path, "w", encoding="utf-8") as file:
        file.write(text)
    os.chmod(path, mode)


def link_all(of, to, but=()):
    """A folder of links to all that is in another, but for some names."""
    os.mkdir(to)
    for name in set(os.listdir(of)).difference(but):
        os.symlink(f"{of}/{name}", f"{to}/{name}")


def lean_kit(room, kept="/dev/null"):
    """The kit's functions, over links to the kit in this room. Its checked run leaves out the address sanitizer, and the
    check beside it, which gives only a hint. What is linked is copied to `kept`."""
    rtlib, of = kit().rtlib, kit().rtlib.KIT
    to = f"{room}/kit"
    link_all(of, to, {"toolchain", "c"})
    link_all(f"{of}/c", f"{to}/c", {"asan.a"})
    write(f"{to}/c/asan.a", "!<arch>\n")
    link_all(f"{of}/toolchain", f"{to}/toolchain", {"bin"})
    link_all(f"{of}/toolchain/bin", f"{to}/toolchain/bin", {"clang", "ld.lld"})
    clang, linker = (shlex.quote(f"{of}/toolchain/bin/{it}") for it in ("clang", "ld.lld"))
    write(f"{to}/toolchain/bin/clang", CLANG.format(clang=clang), 0o755)
    write(f"{to}/toolchain/bin/ld.lld", LINKER.format(linker=linker, kept=shlex.quote(kept)), 0o755)
    rtlib.KIT, rtlib.RATTLE = to, "false"
    return rtlib
