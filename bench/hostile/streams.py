"""Random bytes of connections: well-formed messages, heads that are a little off, and mutated ones."""
from mutations import ODD, mutated
from targets import query, target_in
from texts import cover_in

METHODS = [b"GET"] * 12 + [b"POST"] * 5 + [b"DELETE", b"HEAD", b"PUT", b"get", b"OPTIONS", b"G!#$%&'*+-.^_`|~9", b"CONNECT", b"PRI", b"Post"]
FIELDS = [
    b"Host: here", b"Host:", b"A:b", b"Accept: */*", b"Connection: keep-alive", b"Connection: close",
    b"connection:CLOSE ", b"Connection: close, te", b"Connection:\t close", b"X-Odd: \xff\x80\xc3",
    b"Expect: 100-continue", b"X: \t ", b"Upgrade: h2c", b"Content-Type: application/json", b"Cookie: a=b; c=d",
    b"Range: bytes=0-1",
]
LENGTHS = [
    b"0", b"00", b"5", b"65536", b"65537", b"1" * 18, b"1" * 19, b"+5", b"-5", b"5,5", b"0x5", b"5 ", b"", b"5 5",
    b"\xd9\xa5", b"000000000000000005",
]
CODINGS = [b"Transfer-Encoding: chunked", b"transfer-encoding: identity", b"Transfer-Encoding:", b"TRANSFER-ENCODING: gzip, chunked"]
ODD_FIELDS = [
    b"no colon", b": no name", b"a b: c", b"a : b", b" folded", b"\tfolded", b"a: b\0c", b"a: b\rc", b"a: b\x7fc",
    b"\xff: b", b"a(: b",
]
OTHER_VERSIONS = [b"HTTP/1.0", b"HTTP/1.0", b"HTTP/1.2", b"HTTP/2.0", b"HTTP/0.9", b"http/1.1", b"HTTP/1.10", b"HTTP/1.", b"HTTP/1.1 ", b""]
VERSIONS = [b"HTTP/1.1"] * 150 + OTHER_VERSIONS
BREAKS = [b"\r\n"] * 200 + [b"\n", b"\n", b"\r", b"\n\r", b"\r\r\n"]
WHOLES = [
    b"", b"\r\n", b"\n\n\n", b"GET", b"GET /", b"GET /usage\r\n\r\n", b"GET /usage HTTP/1.1",
    b"GET  /usage HTTP/1.1\r\n\r\n", b"PRI * HTTP/2.0\r\n\r\nSM\r\n\r\n",
    b"\x16\x03\x01\x02\x00\x01\x00\x01\xfc\x03\x03" + b"\x5a" * 60, b"\x80\x2e\x01", b"GET /\xc3\xa9 HTTP/1.1\r\n\r\n",
    b"GET /\xc3 HTTP/1.1\r\n\r\n", b"GET /\xed\xa0", b"GET /\xf0\x9f\x97", b"GET * HTTP/1.1\r\n\r\n",
    b"OPTIONS * HTTP/1.1\r\n\r\n", b"GET http://here/usage HTTP/1.1\r\n\r\n", b"CONNECT here:80 HTTP/1.1\r\n\r\n",
    b"SSH-2.0-OpenSSH_9\r\n", b"EHLO here\r\n", b"\0" * 40, b"\xff" * 300, b"\x05\x01\x00", b"*1\r\n$4\r\nPING\r\n",
]


def fields_in(chance):
    """The fields of a head, most of them harmless."""
    fields = [chance.choice(FIELDS) for _ in range(chance.choice((0, 1, 1, 2, 3, 8)))]
    if chance.random() < 0.04:
        fields += [b"x: %d" % at for at in range(chance.choice((60, 62, 63, 64, 65, 100)))]
    if chance.random() < 0.06:
        fields.append(b"Content-Length: " + chance.choice(LENGTHS))
    if chance.random() < 0.03:
        fields.append(chance.choice(CODINGS))
    if chance.random() < 0.04:
        fields.append(chance.choice(ODD_FIELDS))
    if chance.random() < 0.02:
        fields.append(b"long: " + b"y" * chance.choice((4080, 4096, 8192, 16000, 16300, 16384, 20000)))
    chance.shuffle(fields)
    return fields


def target_for(chance, catalogue):
    """A target that may have any bytes."""
    way = chance.random()
    if way < 0.7:
        return target_in(chance, catalogue)
    if way < 0.9:
        return chance.choice((b"/usage", b"/truncate", b"/truncate", b"/expire", b"/none"))
    if way < 0.98:
        return query(chance, catalogue)
    return b"/wmts?" + chance.choice((b"&" * 16000, b"a" * 16360, b"\xc3\xa9" * 5000, b"%41" * 3000, chance.choice(ODD) * 50))


def message_in(chance, catalogue):
    """The bytes of a message that is right but for what its parts are."""
    method, target = chance.choice(METHODS), target_for(chance, catalogue)
    if target in (b"/truncate", b"/expire") and chance.random() < 0.8:
        method = b"POST"
    fields, body = fields_in(chance), b""
    if method == b"POST" or chance.random() < 0.05:
        body = cover_in(chance, catalogue) if chance.random() < 0.9 else b"x" * chance.choice((1, 100, 4096, 65536, 65537))
        length = chance.choice((b"Content-Length: %d", b"content-length:%d", b"CONTENT-LENGTH:\t0%d "))
        fields.insert(chance.randrange(len(fields) + 1), length % len(body))
    end = chance.choice(BREAKS)
    head = end.join([b"%s %s %s" % (method, target, chance.choice(VERSIONS)), *fields])
    return (b"\r\n" if chance.random() < 0.03 else b"") + head + end + chance.choice(BREAKS) + body


def near_limit(chance):
    """A message whose head has just about as many bytes as a head may have."""
    size = chance.choice((16383, 16384, 16385, 16386))
    blank = b"\r\n" * chance.choice((0, 0, 0, 1, 400))
    head = b"GET /usage HTTP/1.1\r\n"
    filler = size - len(blank) - len(head) - 4
    if chance.random() < 0.5:
        return blank + head + b"x: " + b"y" * (filler - 3) + b"\r\n\r\n"
    return blank + head[:10] + b"?" + b"y" * (filler + 1) + head[10:] + b"\r\n"


def stream_in(chance, catalogue):
    """The bytes of a connection."""
    way = chance.random()
    if way < 0.05:
        return chance.choice(WHOLES) + (message_in(chance, catalogue) if chance.random() < 0.3 else b"")
    if way < 0.08:
        return near_limit(chance) + near_limit(chance)
    data = b"".join(message_in(chance, catalogue) for _ in range(chance.choice((1, 1, 2, 3, 6))))
    return data if way < 0.6 else mutated(chance, data, 4)
