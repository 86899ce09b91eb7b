"""Programs that are compiled without a proof, and kept for further calls, as long as their sources stay as they are."""
import contextlib
import fcntl
import os
import re
import shutil
import subprocess
import sys
import time

from ends import at_end
from files import sum_of_sources, text_of
from kit import LAUNCHERS, kit
from lean import lean_kit
from told import told

TOP = os.path.dirname(os.path.dirname(os.path.realpath(__file__)))
# The crate with the list of all fields, its file, and the list there. A field's name is its type's in small letters.
LISTING, LIST = "field_list", "src/list.rt"
OFFERED = re.compile(r"^pub type Offered = (.*);\n", re.MULTILINE)
# How many seconds pass between two lines on what is being done.
PAUSE = 5


def fields_listed():
    """The fields for which the program's code is there, each name with its type."""
    listed = OFFERED.search(text_of(f"{TOP}/crates/{LISTING}/{LIST}"))
    return {it.lower(): it for it in re.findall(r"\w+", listed[1])} if listed else {}


def compile_in(room, program, field):
    """Has the kit compile a program into a room, over this field alone if one is given. The run itself has no words, and
    so ends at once."""
    rtlib = lean_kit(room, f"{room}/program")
    os.chdir(f"{TOP}/crates/{program}")
    crate = rtlib.Crate(os.getcwd(), TOP, {})
    for below in crate.below():
        if below.name == LISTING and field in fields_listed():
            below.folder = f"{room}/{LISTING}"
            shutil.copytree(f"{TOP}/crates/{LISTING}/src", f"{below.folder}/src")
            alone = f"pub type Offered = ({fields_listed()[field]}, ());\n"
            text = OFFERED.sub(alone, text_of(f"{below.folder}/{LIST}"))
            with open(f"{below.folder}/{LIST}", "w", encoding="utf-8") as file:
                file.write(text)
    crate.try_unproved(["--steps", "1"], [])


class Refusal(Exception):
    """Why a program cannot be started, in words for the user."""


class Kept:
    """A program that is compiled for one field, or for all of them where none is given."""

    def __init__(self, program, field=""):
        self.program, self.field = program, field
        self.folder = f"{TOP}/crates/{program}/out/unproved"

    def say(self, text):
        with contextlib.suppress(OSError):
            if sys.stderr:
                print(f"{LAUNCHERS[self.program]}: {text}", file=sys.stderr, flush=True)

    def path(self, of):
        return f"{self.folder}/{self.field or 'all'}-{of}"

    def is_kept(self, of):
        return os.access(self.path(of), os.X_OK)

    def ready(self):
        """The path of the program, which is compiled if it is not kept."""
        of = sum_of_sources(self.program)
        lock = None if self.is_kept(of) else self.locked()
        self.say("this run is not proved: ./prove proves the program and builds it")
        if lock:
            with lock:
                self.make(of, lock)
        return self.path(of)

    def locked(self):
        """The file whose lock a call holds while it compiles, open."""
        why = "the program is not built, and"
        if not kit():
            raise Refusal(f"{why} the Rattle kit's command rt is not on the path")
        try:
            os.makedirs(self.folder, exist_ok=True)
            return open(f"{self.folder}/lock", "w", encoding="utf-8")
        except OSError as error:
            raise Refusal(f"{why} this folder cannot be written: run ./prove in a copy that can") from error

    def make(self, of, lock):
        """Compiles the program and keeps it in place of that of other sources, unless another call has done so. A signal
        to end this ends all that it started."""
        at_end(lambda number: sys.exit(128 + number))
        try:
            fcntl.flock(lock, fcntl.LOCK_EX | fcntl.LOCK_NB)
        except BlockingIOError:
            self.say("waiting for another call that compiles")
            fcntl.flock(lock, fcntl.LOCK_EX)
        if self.is_kept(of):
            return
        room = f"{self.folder}/room"
        shutil.rmtree(room, ignore_errors=True)
        os.mkdir(room)
        try:
            self.compile(room)
            if sum_of_sources(self.program) != of:
                raise Refusal("the sources changed while they were compiled: call it again")
            for name in os.listdir(self.folder):
                if name.startswith(f"{self.field or 'all'}-"):
                    os.remove(f"{self.folder}/{name}")
            os.rename(f"{room}/program", self.path(of))
        finally:
            shutil.rmtree(room)

    def compile(self, room):
        """Compiles in a process of its own, and tells every few seconds that it does."""
        over = f" over {self.field}" if self.field else ""
        self.say(f"compiling the program{over}, once for these sources: this takes a minute or two")
        started = time.time()
        words = [sys.executable, f"{TOP}/tools/unproved", "--compile", room, self.program, self.field]
        with open(f"{room}/said", "w+", errors="replace") as said:
            # in a session of its own it is told but once to end, as the kit needs it to end what it started
            how = {"stdin": subprocess.DEVNULL, "stdout": said, "stderr": said, "start_new_session": True}
            say = lambda seconds: self.say(f"compiling, for {seconds} seconds")  # noqa: E731
            with told(say, PAUSE), subprocess.Popen(words, **how) as running:
                try:
                    running.wait()
                finally:
                    running.terminate()
            said.seek(0)
            if not os.access(f"{room}/program", os.X_OK):
                raise Refusal(f"the program is not built, and does not compile:\n{said.read()}")
        self.say(f"compiled in {time.time() - started:.0f} seconds, and kept for further calls")
