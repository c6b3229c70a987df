"""Bounds: what a server holds in memory while as many clients as it lets in hold all that they may of it."""
import re
import resource
import socket
import time

from kind_messages import CAPABILITIES, GOOD
from program import Program, Server, read_to_end

CATALOGUE = """{"blobBytes":4000000,"keptLimit":64,"cutLimit":16,"grids":[{"id":"large","corner":["0","0"],"matrices":[
{"id":"0","span":"1","tile":[256,256],"size":[2,2]}]}],
"layers":[{"id":"large","grids":["large"],"styles":[{"id":"grey","breaks":[]}],"meta":[1,1]}]}"""
KIND, BUFFER, BESIDE = "bounds", 1 << 17, 16 << 20
TARGET = b"/rest/wmts/large/grey/large/0/0/0.ppm"
ANSWER = 196_623 + 400


def long_head(line, size, fields=b""):
    """A head of so many bytes."""
    front = line + b" HTTP/1.1\r\n" + fields + b"x: "
    return front + b"y" * (size - len(front) - 4) + b"\r\n\r\n"


def longest(line):
    """A message that is as long as one may be."""
    return long_head(line, 16_384, b"Content-Length: 65536\r\n") + b"z" * 65_536


# How many clients there are, what each of them sends, and what of its answers it may leave to the server. The system takes some megabytes of
# answers that nobody takes for each connection, so fewer clients leave some.
WAYS = {
    "half a head": (1000, long_head(b"GET /usage", 16_384)[:-1], 0),
    "half a body": (1000, longest(b"POST /truncate")[:-1], 0),
    "one of the longest messages, of whose tile they take nothing, and a second one": (1000, longest(b"GET " + TARGET) * 2, ANSWER),
    "sixty tiles that nobody takes": (100, (b"GET " + TARGET + b" HTTP/1.1\r\n\r\n") * 60, ANSWER),
}


def most_held(server):
    """The most bytes that the process had in memory so far."""
    with open(f"/proc/{server.process.pid}/status", encoding="ascii") as file:
        return int(re.search(r"VmHWM:\s+([0-9]+) kB", file.read())[1]) << 10


def connect(server):
    """A connection whose client's side holds little of what comes."""
    link = socket.socket()
    link.setsockopt(socket.SOL_SOCKET, socket.SO_RCVBUF, 4096)
    link.settimeout(20)
    link.connect(("127.0.0.1", server.port))
    link.setblocking(False)
    return link


def send_all(links, data, seconds=6):
    """Sends each of them the bytes, as far as the server takes them in this time. How many of them it took all of."""
    left, until = dict.fromkeys(links, 0), time.monotonic() + seconds
    while left and time.monotonic() < until:
        for it, at in list(left.items()):
            try:
                left[it] = at + it.send(data[at:at + (1 << 16)])
            except BlockingIOError:
                continue
            except ConnectionError:
                del left[it]
                continue
            if left[it] == len(data):
                del left[it]
        time.sleep(0.001)
    return len(links) - len(left)


def one_way(tally, program, name, count, data, answer):
    server = Server(program)
    with server.connect() as link:
        link.sendall(b"GET " + TARGET + b" HTTP/1.1\r\nConnection: close\r\n\r\n")
        read_to_end(link)
    before = most_held(server)
    links = [connect(server) for _ in range(count)]
    sent = send_all(links, data)
    time.sleep(2)
    held, most = most_held(server) - before, count * (BUFFER + answer) + BESIDE
    print(f"{KIND}: {count:,} clients with {name} ({sent:,} of them sent all): {held / 1e6:.1f} MB of at most {most / 1e6:.1f}, beside "
          f"{before / 1e6:.1f}", flush=True)
    tally.count(KIND, name)
    if held > most:
        tally.finding(KIND, name.replace(" ", "_"), f"{name}: {held:,} bytes instead of {most:,}")
    for it in links:
        it.close()
    with server.connect() as link:
        link.sendall(GOOD)
        if not read_to_end(link)[0].startswith(b"HTTP/1.1 200"):
            tally.finding(KIND, name.replace(" ", "_"), f"{name}: a newcomer isn't answered")
    server.stop()


def run(tally, path, folder, _seed, _cases):
    folder.mkdir(parents=True, exist_ok=True)
    (folder / "catalogue.json").write_text(CATALOGUE)
    (folder / "capabilities.xml").write_bytes(CAPABILITIES)
    most = resource.getrlimit(resource.RLIMIT_NOFILE)[1]
    resource.setrlimit(resource.RLIMIT_NOFILE, (min(8192, most), most))
    for name, way in WAYS.items():
        one_way(tally, Program(path, folder), name, *way)
