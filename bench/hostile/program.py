"""The built program, run with words, or as a server that connections are opened to."""
import re
import socket
import subprocess
import time

# The lines on standard error that a run may end with, by its code.
KIND, NAME = "(missing|bad|duplicate|limit)", "[A-Z][A-Za-z]*"
FAULTS = {
    0: "", 2: "usage\n", 3: rf"catalogue (not json  0|{KIND} {NAME} (0|[1-9][0-9]*))\n", 4: "read fault\n",
    5: "write fault\n", 6: "disk fault\n", 7: r"line [1-9][0-9]*\n",
    8: r"(not a cache|catalogue differs [0-9a-f]{64} [0-9a-f]{64}|bad record (0|[1-9][0-9]*)|openings spent)\n",
    9: "cuts full\n", 10: "out of memory\n", 11: r"stream (truncated|bad (400|413|431|501)|too many)\n",
    12: "too long\n", 13: rf"form (not json |(missing|bad|limit) {NAME})\n", 14: "listen fault\n",
}
FIELDS = set("Source KeptLimit CutLimit BlobBytes Quota Policy Grids Layers GridId Meters Corner Matrices MatrixId MatrixCorner Span Scale "
             "Tile Size LayerId LayerGrids Styles StyleId Breaks Dimensions DimensionId Values Default Meta Gutter Cell LayerQuota Ages".split())
COVER_FIELDS = set("Layer Grid ZoomStart ZoomStop Bounds Format Style Dimensions Kind Threads".split())


class Ran:
    """How a run ended: its code (below 0 where a signal ended it, None where it didn't end in time), and what it wrote."""

    def __init__(self, code, output, error):
        self.code, self.output, self.error = code, output, error.decode("utf-8", "replace")

    @property
    def status(self):
        """The code and the fault's line, as the model writes them."""
        return f"{self.code} {self.error}".rstrip("\n") if self.code else str(self.code)

    def broken_rule(self, codes):
        """What the end breaks, where only these codes may come; None where it may be."""
        if self.code is None:
            return "the run doesn't end"
        if self.code < 0:
            return f"a signal ended the run: {-self.code}"
        if self.code not in codes:
            return f"the code {self.code} may not come"
        if not re.fullmatch(FAULTS[self.code], self.error):
            return f"the line isn't one of the code {self.code}"
        named = self.error.split()
        fields = FIELDS if self.code == 3 else COVER_FIELDS
        if self.code in (3, 13) and named[1] != "not" and named[2] not in fields:
            return "no such field"
        return None


class Program:
    def __init__(self, path, folder):
        self.path, self.folder = str(path), folder

    def run(self, *words, data=b"", seconds=60):
        try:
            ran = subprocess.run([self.path, *words], input=data, capture_output=True, cwd=self.folder, timeout=seconds, check=False)
        except subprocess.TimeoutExpired:
            return Ran(None, b"", b"")
        return Ran(ran.returncode, ran.stdout, ran.stderr)


def free_port():
    with socket.socket() as it:
        it.bind(("", 0))
        return it.getsockname()[1]


class Server:
    """The program serving the cache of its folder, which it makes first."""

    def __init__(self, program, makes=True):
        if makes and (made := program.run("make")).code:
            raise SystemExit(f"no cache was made: {made.status}")
        self.port = free_port()
        self.process = subprocess.Popen([program.path, "serve", "--port", str(self.port), "--connections", "1000000"], cwd=program.folder,
                                        stdin=subprocess.DEVNULL, stdout=subprocess.DEVNULL, stderr=subprocess.PIPE)
        self.wait()

    def wait(self):
        for _ in range(1000):
            try:
                return self.connect().close()
            except OSError:
                time.sleep(0.01)
        raise SystemExit("the server takes no connection")

    def connect(self, seconds=20):
        link = socket.create_connection(("127.0.0.1", self.port), timeout=seconds)
        link.setsockopt(socket.IPPROTO_TCP, socket.TCP_NODELAY, 1)
        return link

    def lives(self):
        return self.process.poll() is None

    def stop(self):
        self.process.terminate()
        self.process.wait(10)
        self.process.stderr.close()


def read_to_end(link):
    """All bytes up to the end of a connection, and how it ended: "end", "reset" or "silence"."""
    got = []
    try:
        while piece := link.recv(1 << 16):
            got.append(piece)
    except ConnectionError:
        return b"".join(got), "reset"
    except TimeoutError:
        return b"".join(got), "silence"
    return b"".join(got), "end"
