"""Crashes: a server that clients are busy with is killed, again and again on one cache, and the file that it leaves is read: it opens, what
is kept is newer than each truncation that was answered and covers it, and its bytes are those of its number."""
import random
import threading
import time

import covers
from answers import usage
from journal import Refusal, opened
from kind_crowds import CATALOGUE, Broken, Crowd, Link, ask, message_in
from kind_queries import CAPABILITIES
from pictures import tile_text, tiles_of
from program import Program, Server

KIND, CLIENTS, LOOKED_AT = "crashes", 8, 300


def client(crowd, chance, over):
    """Asks until the server is gone."""
    try:
        link = Link(crowd.server)
        while not over.is_set():
            messages = [message_in(chance, crowd) for _ in range(chance.choice((1, 1, 3)))]
            if not ask(crowd, chance, link, messages)[1]:
                link = Link(crowd.server)
    except (Broken, OSError) as error:
        if not over.is_set():
            crowd.tally.finding(KIND, "client", str(error))


def work_and_kill(crowd, chance):
    over = threading.Event()
    clients = [threading.Thread(target=client, args=(crowd, random.Random(chance.random()), over)) for _ in range(CLIENTS)]
    for it in clients:
        it.start()
    time.sleep(chance.uniform(0.05, 0.6))
    over.set()
    crowd.server.process.kill()
    crowd.server.process.wait(10)
    for it in clients:
        it.join()


def broken_rule(crowd, cabinet):
    """What the cache that the server left breaks, or None."""
    for block, kept in cabinet.kept.items():
        if any(kept.number <= cut and covers.hits(crowd.catalogue, cover, block) for cut, cover in crowd.cuts[-LOOKED_AT:]):
            return "a truncation that was answered isn't in force"
        rows, cols = tiles_of(crowd.catalogue, block)
        texts = [tile_text(crowd.catalogue, kept.number, block._replace(row=row, col=col)) for row in rows for col in cols]
        if b"".join(texts) != cabinet.blobs[block]:
            return "a kept metatile has other bytes"
    return None


def one_case(tally, chance, number, program, crowd):
    crowd.server, crowd.jobs = Server(program, makes=False), {}
    work_and_kill(crowd, chance)
    image = (program.folder / "cache.disk").read_bytes()
    try:
        cabinet = opened(crowd.catalogue, CATALOGUE.encode(), image)
    except Refusal as refusal:
        return tally.finding(KIND, number, f"the file is refused: {refusal}", file=image)
    rule, expected = broken_rule(crowd, cabinet), usage(cabinet)
    ran = program.run("usage")
    if not rule and (ran.status, ran.output) != ("0", expected):
        rule = "another usage"
    if rule:
        tally.finding(KIND, number, rule, file=image, expected=expected, received=(ran.status, ran.output))
    return tally.count(KIND, ran.status)


def run(tally, path, folder, seed, cases):
    folder.mkdir(parents=True, exist_ok=True)
    (folder / "catalogue.json").write_text(CATALOGUE)
    (folder / "capabilities.xml").write_bytes(CAPABILITIES)
    program, begun = Program(path, folder), time.monotonic()
    program.run("make")
    crowd = Crowd(tally, None)
    for number in range(cases):
        one_case(tally, random.Random(f"{seed} {KIND} {number}"), number, program, crowd)
    print(f"{KIND}: {cases:,} in {time.monotonic() - begun:.0f} s, {len(crowd.cuts)} truncations", flush=True)
