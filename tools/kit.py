"""The Rattle kit's command as a module, how many checks a machine holds side by side, and a proof of one crate over
libraries that were built before."""
import functools
import os
import shutil
import subprocess
import sys
from importlib import machinery, util

# The programs, by their crates, and what starts each.
LAUNCHERS = {"lookup_run": "lookup-run", "check_program": "lookup-check"}
# What a check takes: one to four GB, and several side by side seldom their most at once.
MEMORY_OF_A_CHECK = 3 << 30


@functools.cache
def kit():
    """The kit's command `rt`, as a module. None where it is not on the path."""
    command = shutil.which("rt")
    if command is None:
        return None
    sys.dont_write_bytecode = True
    loader = machinery.SourceFileLoader("rt", os.path.realpath(command))
    module = util.module_from_spec(util.spec_from_loader("rt", loader))
    loader.exec_module(module)
    return module


def lanes():
    """How many checks to run side by side, with one job each: RT_JOBS where it is given, else as many as there are
    processors, by the quota of the control group as well, and no more than memory holds."""
    given = os.environ.get("RT_JOBS", "")
    if given.isdigit() and int(given):
        return int(given)
    return max(1, min(kit().processors(), kit().free() // MEMORY_OF_A_CHECK))


def given_jobs():
    """The flags for as many jobs of one check as RT_JOBS says, if it is given."""
    given = os.environ.get("RT_JOBS", "")
    return ["--jobs", given] if given.isdigit() and int(given) else []


def has_library(crate):
    """Whether a crate's library stands in its checkout. `rt ci` leaves one without a stamp; one with a stamp has to be
    made from the sources that are here."""
    has_stamp = os.path.isfile(f"{os.path.dirname(crate.rlib)}/stamp")
    return os.path.isfile(f"{crate.rlib}/format") and (crate.is_built() or not has_stamp)


def over_libraries(top, name, call, command):
    """Proves a crate of a repository by a call of the kit's functions, over the libraries below it as they stand there.
    Where one is missing or of other sources, the kit's command builds them first. Returns the status."""
    os.chdir(f"{top}/crates/{name}")
    crate = kit().rtlib.Crate(os.getcwd(), top, {})
    if not all(map(has_library, crate.below())):
        return subprocess.run(["rt", command], check=False).returncode
    os.makedirs("out", exist_ok=True)
    return call(crate)
