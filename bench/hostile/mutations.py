"""Mutations of bytes: flipped, inserted, deleted, repeated, exchanged and cut ones."""

ODD = [
    b"\0", b"\r", b"\n", b"\r\n", b"\r\n\r\n", b" ", b"\t", b"%", b"%00", b"%zz", b"%2", b"+", b"&", b"=", b";", b"#",
    b"?", b"/", b"//", b"..", b":", b"\x7f", b"\x80", b"\xff", b"\xc3", b"\xc3\xa9", b"\xed\xa0\x80",
    b"\xf0\x9f\x97\xba", b"\xef\xbf\xbe", b"\xef\xbb\xbf", b"0", b"-1", b"00", b"9" * 19, b'"', b"<", b"]]>", b"{",
    b"}", b"[", b"]", b",", b"\\u0000", b"null", b"1e9",
]


def place_in(chance, data):
    return chance.randrange(len(data) + 1)


def flipped(chance, data):
    at = chance.randrange(len(data))
    return data[:at] + bytes([data[at] ^ 1 << chance.randrange(8)]) + data[at + 1:]


def replaced(chance, data):
    at = chance.randrange(len(data))
    return data[:at] + bytes([chance.randrange(256)]) + data[at + 1:]


def inserted(chance, data):
    at = place_in(chance, data)
    return data[:at] + (chance.choice(ODD) if chance.random() < 0.8 else chance.randbytes(chance.randrange(1, 5))) + data[at:]


def part_of(chance, data):
    """Where a short part of the bytes begins and ends."""
    start = place_in(chance, data)
    return start, min(len(data), start + chance.choice((1, 1, 2, 4, 8, 16, 64)))


def deleted(chance, data):
    start, end = part_of(chance, data)
    return data[:start] + data[end:]


def repeated(chance, data):
    start, end = part_of(chance, data)
    return data[:end] + data[start:end] * chance.choice((1, 1, 1, 2, 7, 40)) + data[end:]


def moved(chance, data):
    start, end = part_of(chance, data)
    rest = data[:start] + data[end:]
    at = place_in(chance, rest)
    return rest[:at] + data[start:end] + rest[at:]


def cut(chance, data):
    return data[:place_in(chance, data)]


WAYS = (flipped, replaced, inserted, inserted, deleted, repeated, moved)


def mutated(chance, data, most=3):
    """The bytes after one or a few mutations."""
    for _ in range(chance.randint(1, most)):
        if data:
            data = chance.choice(WAYS)(chance, data)
    return cut(chance, data) if chance.random() < 0.1 else data
