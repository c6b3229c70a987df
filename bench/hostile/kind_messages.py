"""Messages: random bytes over a connection a case, all that is answered compared with the answers of the model."""
import random
import time

from answers import answer, response
from cabinet import Cabinet
from catalogues import MANY, read
from exchanges import closing, told_by
from kind_queries import CAPABILITIES
from messages import END, SESSION, TRUNCATED, messages_of
from program import Program, Server
from streams import stream_in

KIND = "messages"
GOOD = b"GET /usage HTTP/1.1\r\nConnection: close\r\n\r\n"


class Served:
    """A server, and the model of its cabinet."""

    def __init__(self, program):
        self.server, self.cabinet, self.early = Server(program), Cabinet(read(MANY), 1), 0

    def expected(self, data):
        """The answers to the messages of a connection, and what may follow them."""
        messages, stops = messages_of(data)
        answers = []
        for at, it in enumerate(messages, 1):
            answers.append(answer(self.cabinet, CAPABILITIES, it.method, it.target, it.body, it.last or at == SESSION))
        return answers, {response(it, closes=True) if isinstance(it, int) else b"" for it in stops}, stops

    def is_right(self, answers, endings, got):
        """Whether these are the answers, or the first of them up to one with which the connection ends."""
        if any(got == b"".join(answers) + it for it in endings):
            return True
        for at, it in enumerate(answers):
            if got == b"".join(answers[:at]) + closing(it):
                self.early += 1
                return True
        return False


def statuses_of(answers, got):
    """The statuses of the answers, and of what came behind them."""
    behind = got[sum(map(len, answers)):][9:12].decode("latin-1")
    return [it[9:12].decode() for it in answers] + ([behind] if behind else [])


def good_answer(tally, case, served):
    """Tries a good message over a new connection: it is answered within a second."""
    expected = served.expected(GOOD)[0]
    begun = time.monotonic()
    got, _ = told_by(served.server, GOOD, [], False)
    took = time.monotonic() - begun
    if not served.is_right(expected, set(), got) and got != expected[0]:
        tally.finding(KIND, case, "a good message behind it has another answer", expected=expected[0], received=got)
    elif took > 1:
        tally.finding(KIND, case, f"a good message behind it took {took:.1f} s")


def needs_end(data, stops):
    """Whether the answer comes only once the client ends its side: bytes that are no message are looked at again when a line ends."""
    return bool(stops & {END, TRUNCATED}) or (400 in stops and not data.endswith(b"\n"))


def one_case(tally, chance, number, served):
    """Whether the model still has the state of the server."""
    data = stream_in(chance, served.cabinet.catalogue)
    answers, endings, stops = served.expected(data)
    pieces = [chance.randrange(len(data)) for _ in range(chance.choice((0, 0, 0, 0, 0, 0, 0, 1, 2, 5)))] if data else []
    ends = needs_end(data, stops) or chance.random() < 0.3
    got, how = told_by(served.server, data, pieces, ends)
    tally.count(KIND, *statuses_of(answers, got))
    if how != "end" or not served.is_right(answers, endings, got):
        rule = {"end": "other answers", "reset": "the connection was reset", "silence": "the connection doesn't end"}[how]
        expected = b"\n--or--\n".join(b"".join(answers) + it for it in endings)
        tally.finding(KIND, number, rule if served.server.lives() else "the server ended", sent=data, expected=expected, received=got)
        return False
    if number % 50 == 0:
        good_answer(tally, number, served)
    return True


def run(tally, path, folder, seed, cases):
    folder.mkdir(parents=True, exist_ok=True)
    (folder / "catalogue.json").write_text(MANY)
    (folder / "capabilities.xml").write_bytes(CAPABILITIES)
    program, begun = Program(path, folder), time.monotonic()
    served = Served(program)
    for number in range(cases):
        if not one_case(tally, random.Random(f"{seed} {KIND} {number}"), number, served):
            served.server.stop()
            served = Served(program)
    served.server.stop()
    print(f"{KIND}: {cases:,} in {time.monotonic() - begun:.0f} s, {served.early} ended behind a good message", flush=True)
