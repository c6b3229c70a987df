"""Slow readers: clients that ask for many large tiles in one go and read them in small pieces, each byte compared."""
import random
import socket
import threading
import time

from answers import answer
from cabinet import Cabinet
from catalogues import read
from program import Program, Server

KIND, CLIENTS = "readers", 12
LARGE = """{"blobBytes":100000000,"keptLimit":64,"cutLimit":16,"grids":[{"id":"large","corner":["0","0"],"matrices":[
{"id":"0","span":"1/7","tile":[512,512],"size":[2,2]}]}],
"layers":[{"id":"large","grids":["large"],"styles":[{"id":"grey","breaks":[]}],"meta":[1,2],"gutter":3}]}"""
TILES = [b"/rest/wmts/large/grey/large/0/%d/%d.ppm" % (row, col) for row in range(2) for col in range(2)]


def message(target):
    return b"GET %s HTTP/1.1\r\n\r\n" % target


def read_slowly(chance, link, expected):
    """Whether just these bytes come; they are read in pieces of random lengths, with pauses."""
    place = 0
    while place < len(expected):
        piece = link.recv(chance.choice((1, 100, 5000, 50_000, 200_000)))
        if not piece or not expected.startswith(piece, place):
            return place
        place += len(piece)
        if chance.random() < 0.05:
            time.sleep(chance.choice((0.001, 0.02)))
    return None


def client(tally, server, chance, hits, count):
    for number in range(count):
        asked = [chance.choice(sorted(hits)) for _ in range(chance.choice((1, 3, 12)))]
        expected = b"".join(hits[it] for it in asked)
        with socket.socket() as link:
            link.setsockopt(socket.SOL_SOCKET, socket.SO_RCVBUF, chance.choice((4096, 65536)))
            link.settimeout(30)
            try:
                link.connect(("127.0.0.1", server.port))
                link.sendall(b"".join(map(message, asked)))
                wrong = read_slowly(chance, link, expected)
            except OSError as error:
                wrong = error
        tally.count(KIND, *["200"] * len(asked))
        if wrong is not None:
            tally.finding(KIND, number, f"other bytes, or none, from {wrong} on", sent=b"".join(map(message, asked)))


def run(tally, path, folder, seed, cases):
    folder.mkdir(parents=True, exist_ok=True)
    (folder / "catalogue.json").write_text(LARGE)
    begun, server, cabinet = time.monotonic(), Server(Program(path, folder)), Cabinet(read(LARGE), 1)
    with server.connect() as link:
        for target in TILES:
            first = answer(cabinet, b"", b"GET", target)
            link.sendall(message(target))
            if read_slowly(random.Random(seed), link, first) is not None:
                tally.finding(KIND, "first", "another first tile", sent=message(target))
    hits = {target: answer(cabinet, b"", b"GET", target) for target in TILES}
    chances = [random.Random(f"{seed} {KIND} {at}") for at in range(CLIENTS)]
    clients = [threading.Thread(target=client, args=(tally, server, it, hits, max(cases // CLIENTS, 1))) for it in chances]
    for it in clients:
        it.start()
    for it in clients:
        it.join()
    if not server.lives():
        tally.finding(KIND, "all", "the server ended")
    server.stop()
    print(f"{KIND}: {cases:,} in {time.monotonic() - begun:.0f} s", flush=True)
