"""Calls slangc in a folder of its own, and counts where it did otherwise than was expected. Where no program is named, the launcher builds it,
where it must, and then the program itself is called: so the streams of a call are those that it gets."""
import os
import shutil
import subprocess

ROOT = os.path.dirname(os.path.dirname(os.path.abspath(__file__)))
LAUNCHER = os.path.join(ROOT, "slangc")
PROGRAM = os.path.join(ROOT, "crates", "sl_main", "out", "sl_main")


class Product:
    """slangc in a folder: what was called, how often each answer was expected, and how many calls differed."""

    def __init__(self, folder, seed, program=None):
        self.folder = folder
        self.seed = seed
        self.program = os.path.abspath(program or PROGRAM)
        self.calls = 0
        self.differed = 0
        self.answers = {}
        if program is None:
            # standard error also says so where the launcher builds
            self.compare("the launcher without words", self.call(LAUNCHER)[:2], (b"", 64))

    def call(self, *command, data=b"", **streams):
        """Standard output, the status and standard error of a command. A status below 0 is a signal."""
        streams = {"stdout": subprocess.PIPE, "stderr": subprocess.PIPE, **streams}
        if "stdin" not in streams:
            streams["input"] = data
        done = subprocess.run(command, cwd=self.folder, timeout=600, check=False, **streams)
        return done.stdout or b"", done.returncode, done.stderr or b""

    def slangc(self, *words, data=b"", **streams):
        self.calls += 1
        return self.call(self.program, *words, data=data, **streams)

    def write(self, name, data):
        with open(os.path.join(self.folder, name), "wb") as file:
            file.write(data)

    def read(self, name):
        """The bytes of a file, or None where it isn't there."""
        try:
            with open(os.path.join(self.folder, name), "rb") as file:
                return file.read()
        except FileNotFoundError:
            return None

    def remove(self, name):
        """Removes a file, where it is there."""
        if self.read(name) is not None:
            os.remove(os.path.join(self.folder, name))

    @staticmethod
    def answer_of(wanted):
        """What kind of answer is wanted: by its status, by the rule that is broken, or accepted."""
        status = wanted[1]
        if status == 65 and len(wanted) > 2:
            return "65 " + (wanted[2].split() or [b"unsaid"])[-1].decode()
        if wanted[0] == b"accepted\n":
            return "accepted"
        return "0 to 63" if 0 <= status <= 63 else str(status)

    def compare(self, what, found, wanted, *kept):
        """Counts what was wanted, and tells it where something else was found. The files `kept` are then copied to this folder."""
        answer = self.answer_of(wanted)
        self.answers[answer] = self.answers.get(answer, 0) + 1
        if found != wanted:
            self.differed += 1
            print(f"seed {self.seed}, {what}: {found} where {wanted} was expected")
            for name in kept:
                copy = f"differs-{self.seed}-{self.differed}-{name}"
                shutil.copy(os.path.join(self.folder, name), copy)
                print(f"  {copy}: {self.read(name)[:1500]!r}")
