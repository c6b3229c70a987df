"""One connection after the other to a server, whose answers are compared with those that are right."""
import time

from program import read_to_end


def closing(answer):
    """An answer with which a connection ends."""
    head, body = answer.split(b"\r\n\r\n", 1)
    return head + b"\r\nConnection: close\r\n\r\n" + body


class Line:
    """A connection with keep-alive, opened anew where the server ends it."""

    def __init__(self, server):
        self.server, self.link, self.sent, self.closes = server, None, 0, 0

    def send(self, data):
        if self.link is None:
            self.link = self.server.connect()
        self.link.sendall(data)

    def close(self):
        if self.link:
            self.link.close()
        self.link = None

    def receive(self, count):
        """So many bytes, or as many as come."""
        got = bytearray()
        try:
            while len(got) < count:
                piece = self.link.recv(1 << 18)
                if not piece:
                    break
                got += piece
        except OSError:
            pass
        return bytes(got)

    def exchange(self, messages, answers):
        """Sends messages, and compares what is answered. None, or the number of the first one with another answer, and that."""
        at = 0
        while at < len(messages):
            self.send(b"".join(messages[at:]))
            got, place = self.receive(sum(map(len, answers[at:]))), 0
            while at < len(messages) and got.startswith(answers[at], place):
                place, at = place + len(answers[at]), at + 1
            if at == len(messages):
                break
            if got[place:] != closing(answers[at]):
                return at, got[place:]
            at, self.closes = at + 1, self.closes + 1
            self.close()
        self.sent += len(messages)
        return None


def told_by(server, data, pieces, ends, seconds=20):
    """What one connection is answered to the bytes, sent in pieces. Where `ends` is set, the client says that it has sent all."""
    with server.connect(seconds) as link:
        try:
            for at, piece in enumerate(pieces_of(data, pieces)):
                if at:
                    time.sleep(0.002)
                link.sendall(piece)
            if ends:
                link.shutdown(1)
        except ConnectionError:
            pass
        return read_to_end(link)


def pieces_of(data, pieces):
    places = [0, *sorted(pieces), len(data)]
    return [data[start:end] for start, end in zip(places, places[1:]) if start < end]
