"""Runs the built program while growths of its memory are refused."""
import mmap
import os
import pathlib
import struct
import subprocess

from program import Ran

HERE = pathlib.Path(__file__).resolve().parent
EVER = 2**64 - 1
ASKED, FIRST, LAST, REFUSED = range(4)


class Growths:
    """The numbers that the library shares: how many growths were asked for, which are refused, and how many were."""

    def __init__(self, folder):
        library, self.file = folder / "refusing.so", folder / "growths"
        subprocess.run(["cc", "-shared", "-fPIC", "-O2", "-o", str(library), str(HERE / "refusing.c"), "-ldl"], check=True)
        self.file.write_bytes(bytes(32))
        with self.file.open("r+b") as file:
            self.map = mmap.mmap(file.fileno(), 32)
        self.environment = {**os.environ, "LD_PRELOAD": str(library), "GROWTHS_FILE": str(self.file)}

    def number(self, which):
        return struct.unpack_from("<Q", self.map, 8 * which)[0]

    def put(self, which, number):
        struct.pack_into("<Q", self.map, 8 * which, number)

    def begin(self, first, last):
        """Counts anew, and refuses the growths from the first to the last; none where the first is 0."""
        self.put(FIRST, 0)
        self.put(ASKED, 0)
        self.put(REFUSED, 0)
        self.put(LAST, last)
        self.put(FIRST, first)

    def refuse_next(self, count, last=None):
        """Refuses the growth that comes as so many from now on, and up to the last."""
        self.put(FIRST, 0)
        self.put(REFUSED, 0)
        number = self.number(ASKED) + count
        self.put(LAST, number if last is None else last)
        self.put(FIRST, number)

    def refuse_none(self):
        """How many were refused; from now on none is."""
        self.put(FIRST, 0)
        return self.number(REFUSED)


class Program:
    """The built program in a folder."""

    def __init__(self, path, folder, growths):
        self.path, self.folder, self.growths = str(path), folder, growths

    def run(self, *words, data=b"", seconds=60):
        """A run of which nothing is refused but what the numbers say."""
        try:
            ran = subprocess.run([self.path, *words], input=data, capture_output=True, cwd=self.folder, timeout=seconds, check=False,
                                 env=self.growths.environment)
        except subprocess.TimeoutExpired:
            return Ran(None, b"", b"")
        return Ran(ran.returncode, ran.stdout, ran.stderr)

    def refused(self, first, last, *words, data=b""):
        """A run of which the growths with these numbers are refused, and whether one was."""
        self.growths.begin(first, last)
        ran = self.run(*words, data=data)
        return ran, self.growths.refuse_none() > 0

    def start(self, *words):
        return subprocess.Popen([self.path, *words], cwd=self.folder, stdin=subprocess.DEVNULL, stdout=subprocess.DEVNULL,
                                stderr=subprocess.PIPE, env=self.growths.environment)
