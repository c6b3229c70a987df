"""Attacks: the listed hostile clients, each followed by a good message over a new connection, which has to be answered within a second."""
import random
import resource
import socket
import struct
import threading
import time

from answers import response
from catalogues import MANY
from exchanges import told_by
from kind_messages import CAPABILITIES, GOOD, Served, statuses_of
from messages import END, TRUNCATED
from program import Program, read_to_end

KIND = "attacks"
TILE = b"GET /rest/wmts/demo/grey/tiny/0/0/0.ppm HTTP/1.1\r\nHost: here\r\n\r\n"
USAGE = b"GET /usage HTTP/1.1\r\n\r\n"
POST = b"POST /truncate HTTP/1.1\r\n"
HELLO = b"\x16\x03\1\0\xc8\1\0\0\xc4\3\3" + bytes(range(32)) + b"\x20" + bytes(range(32, 64)) + b"\0\4\x13\1\x13\2\1\0"
LENGTHS = [
    b"Content-Length: 5\r\nContent-Length: 5\r\n", b"Content-Length: 5\r\ncontent-length: 6\r\n", b"Content-Length: 5, 5\r\n",
    b"Content-Length: +5\r\n", b"Content-Length:\r\n", b"Content-Length: 5\x0b\r\n", b"Content-Length: 0x5\r\n", b"Content-Length: 5 5\r\n",
    b"Content-Length: 05\r\n",
]
TARGETS = [
    b"http://here/usage", b"https://here:443/wmts?x", b"*", b"here:80", b"//usage", b"/usage/../usage", b"/.", b"\\usage",
    b"/usage;x", b"?x", b"#x",
]
UPGRADE = b"Connection: Upgrade, HTTP2-Settings\r\nUpgrade: h2c\r\nHTTP2-Settings: AAMAAABkAARAAAAAAAIAAAAA\r\n"


def long_heads():
    front = b"GET /usage HTTP/1.1\r\nx: "
    for size in (16383, 16384, 16385, 16386, 100_000):
        yield f"a head of {size} bytes", front + b"y" * (size - len(front) - 4) + b"\r\n\r\n" + USAGE
        yield f"a head of {size} bytes without its end", front + b"y" * (size - len(front))
        yield f"a target of a head of {size} bytes", b"GET /usage?" + b"y" * (size - 24) + b" HTTP/1.1\r\n\r\n"
        yield f"a request line of {size} bytes without its end", b"GET /" + b"y" * (size - 5)
        yield f"a target of {size} bytes that is no text", b"GET /\xff" + b"y" * (size - 6)
        yield f"{size} bytes of empty lines", b"\r\n" * (size // 2)
    yield "a method of 20,000 bytes", b"G" * 20_000
    yield "the name of a field of 20,000 bytes", b"GET /usage HTTP/1.1\r\n" + b"n" * 20_000
    for count in (63, 64, 65, 66, 1000):
        yield f"a head of {count} fields", b"GET /usage HTTP/1.1\r\n" + b"a: b\r\n" * count + b"\r\n"


def bodies():
    for size in (0, 1, 65535, 65536, 65537, 10**17, 10**18, 2**64 - 1, 2**64):
        yield f"a body of {size} bytes", POST + b"Content-Length: %d\r\n\r\n" % size + b"x" * min(size, 70_000)
    for lengths in LENGTHS:
        yield f"lengths {lengths!r}", POST + lengths + b"\r\nhello" + USAGE
    for coding in (b"chunked", b"gzip, chunked", b"identity", b"", b"chunked, chunked", b"\x0bchunked", b"xchunked"):
        yield f"the coding {coding!r}", POST + b"Transfer-Encoding: " + coding + b"\r\n\r\n5\r\nhello\r\n0\r\n\r\n" + USAGE
        yield f"the coding {coding!r} and a length", POST + b"Content-Length: 5\r\nTransfer-Encoding: " + coding + b"\r\n\r\nhello" + USAGE


def other_protocols():
    yield "HTTP/0.9", b"GET /usage\r\n"
    yield "the preface of HTTP/2", b"PRI * HTTP/2.0\r\n\r\nSM\r\n\r\n" + bytes(9)
    yield "an upgrade to HTTP/2", b"GET /usage HTTP/1.1\r\n" + UPGRADE + b"\r\n"
    yield "a TLS hello", HELLO
    for target in TARGETS:
        for method in (b"GET", b"OPTIONS", b"CONNECT"):
            yield f"the target {target!r} of {method!r}", method + b" " + target + b" HTTP/1.1\r\n\r\n" + USAGE
    yield "no byte", b""


def odd_bytes():
    """NUL and bytes above 127 in each place of a message, in place of its byte and before it."""
    whole = b"POST /expire HTTP/1.1\r\nHost: here\r\nContent-Length: 3\r\n\r\nabc"
    for at in range(len(whole) + 1):
        for odd in (b"\0", b"\x7f", b"\x80", b"\xff", b"\xc3\xa9", b"\r", b"\n"):
            yield f"{odd!r} before byte {at}", whole[:at] + odd + whole[at:]
            yield f"{odd!r} in place of byte {at}", whole[:at] + odd + whole[at + 1:]


def cut_messages():
    whole = POST + b"Content-Length: 5\r\n\r\nhello"
    for at in range(len(whole) + 1):
        yield f"a message cut after {at} bytes", whole[:at]


class Attacks:
    def __init__(self, tally, program):
        self.tally, self.program, self.served, self.number = tally, program, Served(program), 0

    def fail(self, name, rule, **files):
        self.tally.finding(KIND, self.number, f"{name}: {rule}", **files)
        self.served.server.stop()
        self.served = Served(self.program)

    def compare(self, name, data, pieces=()):
        """Sends bytes over one connection, and compares the answers."""
        self.number += 1
        answers, endings, stops = self.served.expected(data)
        got, how = told_by(self.served.server, data, pieces, bool(stops & {END, TRUNCATED}))
        self.tally.count(KIND, *statuses_of(answers, got))
        if how != "end" or not self.served.is_right(answers, endings, got):
            expected = b"\n--or--\n".join(b"".join(answers) + it for it in endings)
            self.fail(name, "other answers" if how == "end" else how, sent=data, expected=expected, received=got)

    def newcomer(self, name):
        """A good message over a new connection."""
        expected, begun = b"".join(self.served.expected(GOOD)[0]), time.monotonic()
        got, _ = told_by(self.served.server, GOOD, (), False)
        took = time.monotonic() - begun
        self.tally.count(KIND, got[9:12].decode("latin-1"))
        if got != expected or took > 1:
            self.fail(name, f"then a good message was answered after {took:.1f} s", expected=expected, received=got)

    def at_once(self, name, count, data):
        """So many connections at once, each of which is answered."""
        self.compare("a tile", data)
        expected = b"".join(self.served.expected(data)[0])
        links = [self.served.server.connect() for _ in range(count)]
        for it in links:
            it.sendall(data)
            it.shutdown(socket.SHUT_WR)
        told = [read_to_end(it)[0] for it in links]
        for it in links:
            it.close()
        self.number += 1
        self.tally.count(KIND, *(it[9:12].decode("latin-1") for it in told))
        if any(it != expected for it in told):
            self.fail(name, f"{sum(it != expected for it in told)} of {count} were answered otherwise", sent=data, expected=expected)

    def vanish(self, chance, count):
        """Clients that are gone within the message, before the answer or within it; half of them reset the connection."""
        data = TILE * 50
        self.compare("a tile", TILE)
        for _ in range(count):
            link = self.served.server.connect()
            link.sendall(data[:chance.choice((1, 30, len(TILE), len(TILE) * 3 + 7, len(data)))])
            if chance.random() < 0.5:
                link.setsockopt(socket.SOL_SOCKET, socket.SO_LINGER, struct.pack("ii", 1, 0))
            if chance.random() < 0.5:
                link.settimeout(0.05)
                try:
                    link.recv(chance.choice((1, 17, 200)))
                except OSError:
                    pass
            link.close()
            self.tally.count(KIND)
        self.number += 1

    def pipeline(self, count):
        """So many messages in one go: answered in order, up to one with which the connection may end."""
        data = USAGE * count
        answers, _, _ = self.served.expected(data)
        with self.served.server.connect() as link:
            sender = threading.Thread(target=self.send_all, args=(link, data))
            sender.start()
            got, how = read_to_end(link)
            sender.join()
        self.number += 1
        self.tally.count(KIND, *([got[9:12].decode("latin-1")] * got.count(b"HTTP/1.1 200")))
        answers = [it.replace(b"Connection: close\r\n", b"") for it in answers[:1]] * count
        if how == "reset" or not self.served.is_right(answers, {b""}, got):
            self.fail(f"a pipeline of {count} messages", "other answers", received=got[-2000:])

    def byte_by_byte(self, name, data):
        self.number += 1
        answers, endings, _ = self.served.expected(data)
        with self.served.server.connect() as link:
            try:
                for at in range(len(data)):
                    link.sendall(data[at:at + 1])
            except ConnectionError:
                pass
            got, how = read_to_end(link)
        self.tally.count(KIND, *statuses_of(answers, got))
        if how != "end" or not self.served.is_right(answers, endings, got):
            self.fail(name, how, sent=data, received=got)
        self.newcomer(name)

    @staticmethod
    def send_all(link, data):
        try:
            link.sendall(data)
            link.shutdown(socket.SHUT_WR)
        except OSError:
            pass

    def hold(self, count):
        """Clients that rest, that stop within a head, and that ask and don't read: newcomers are answered, and half a head ends in time."""
        self.compare("a tile", TILE)
        links = [self.served.server.connect() for _ in range(count)]
        for at, it in enumerate(links):
            if at % 3:
                it.setblocking(False)
                try:
                    it.send(USAGE[:10] if at % 3 == 1 else TILE * 5000)
                except BlockingIOError:
                    pass
        begun, odd = time.monotonic(), self.served.server.connect()
        odd.sendall(b"GET /usage")
        for _ in range(5):
            self.newcomer(f"{count} clients that hold their connections")
        odd.sendall(b"\x01")
        self.ends_in_time("half a head", links[1], begun, {b""})
        self.ends_in_time("bytes that are no message, in two pieces without a line's end", odd, begun, {b"", response(400, closes=True)})
        for it in (*links, odd):
            it.close()

    def ends_in_time(self, name, link, begun, answers):
        """The server ends the connection, with one of these answers."""
        link.settimeout(20)
        got, how = read_to_end(link)
        took = time.monotonic() - begun
        if got not in answers or how == "silence" or took > 13:
            self.fail(name, f"ended as {how} after {took:.1f} s", received=got)


def run(tally, path, folder, seed, cases):
    folder.mkdir(parents=True, exist_ok=True)
    (folder / "catalogue.json").write_text(MANY)
    (folder / "capabilities.xml").write_bytes(CAPABILITIES)
    most = resource.getrlimit(resource.RLIMIT_NOFILE)[1]
    resource.setrlimit(resource.RLIMIT_NOFILE, (min(8192, most), most))
    begun, attacks, chance = time.monotonic(), Attacks(tally, Program(path, folder)), random.Random(f"{seed} {KIND}")
    for name, data in (*long_heads(), *bodies(), *other_protocols(), *odd_bytes(), *cut_messages()):
        attacks.compare(name, data)
        if attacks.number % 20 == 0:
            attacks.newcomer(name)
    attacks.byte_by_byte("a head of 16,385 bytes, byte by byte", b"GET /usage HTTP/1.1\r\nx: " + b"y" * 16361)
    attacks.byte_by_byte("a good message, byte by byte", GOOD)
    for count in (9_999, 10_000, 10_001, 30_001):
        attacks.pipeline(count)
        attacks.newcomer("a pipeline")
    attacks.vanish(chance, min(cases, 500))
    attacks.newcomer("clients that vanish")
    for count in (100, 1000, 1100):
        attacks.at_once(f"{count} at once", count, TILE)
        attacks.newcomer(f"{count} at once")
    attacks.hold(60)
    attacks.newcomer("clients that hold their connections")
    attacks.served.server.stop()
    print(f"{KIND}: {attacks.number:,} in {time.monotonic() - begun:.0f} s", flush=True)
