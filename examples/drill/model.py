"""The drill of a number on the built-in catalogue, written a second time from the rules of schedules and drills alone.

    python3 model.py 1

prints the two lines that `./tile_server drill 1` prints;

    python3 model.py 1 5

those of a drill whose source fails at its fifth rendering, and

    python3 model.py 1 each

those of a drill for each rendering that the first one makes, in which that one alone fails. It knows no metatile larger than a
tile, no quota and no full list, since the built-in catalogue has none of them: 21 tiles of one layer, and at most one truncation
in force for each of 3 levels.
"""

import hashlib
import sys

LINES = 4096
ACTORS = 4
SPANS = [8, 4, 2]  # the side of a pixel at each level, in ground cells
SIDES = [1, 2, 4]  # how many rows and columns of tiles each level has
PIXELS = range(2)  # of a tile, across and downwards

FAILED = b"""<?xml version="1.0" encoding="UTF-8"?>
<ExceptionReport xmlns="http://www.opengis.net/ows/1.1" version="1.1.0">
<Exception exceptionCode="NoApplicableCode"/>
</ExceptionReport>
"""


def tile_text(number, tile):
    """The text of a tile in the picture of a render."""
    z, row, col = tile
    text = b"P6\n2 2\n255\n"
    for y in PIXELS:
        for x in PIXELS:
            cell_x = (2 * (2 * col + x) + 1) * SPANS[z] // 2
            cell_y = (2 * (2 * row + y) + 1) * SPANS[z] // 2
            text += bytes([(7 * number + 17 * cell_x + 13 * cell_y) % 256]) * 3
    return text


class Cache:
    def __init__(self):
        self.last = 0
        self.kept = {}  # the number of the render that is kept of a tile
        self.running = {}  # by its number, the tile of a render and whether it is overtaken

    def ask(self, tile, force):
        """What an actor goes on with: a hit, the wait for a render, or a ticket for one."""
        if not force and tile in self.kept:
            return ("hit", self.kept[tile])
        if [tile, False] in self.running.values():
            return ("waits", force)
        self.last += 1
        self.running[self.last] = [tile, False]
        return ("holds", self.last)

    def finish(self, number):
        tile, overtaken = self.running.pop(number)
        if not overtaken:
            self.kept[tile] = number

    def abandon(self, number):
        del self.running[number]

    def truncate(self, level):
        self.last += 1
        self.kept = {tile: number for tile, number in self.kept.items() if tile[0] != level}
        for render in self.running.values():
            render[1] = render[1] or render[0][0] == level
        return self.last


class Drill:
    def __init__(self, number, fails=0):
        self.x = number
        self.fails = fails  # the rendering that fails, counted from 1
        self.renderings = 0
        self.cache = Cache()
        self.busy = [None] * ACTORS  # the line of the start, the tile, and what the actor goes on with
        self.digest = hashlib.sha256()
        self.hits = self.misses = self.others = 0

    def draw(self, count):
        self.x = (self.x * 6364136223846793005 + 1442695040888963407) % 2**64
        return self.x // 2**33 % count

    def renders(self):
        """Whether a rendering goes well."""
        self.renderings += 1
        return self.renderings != self.fails

    def answer(self, line, actor, start, kind, more, body, status="200 OK"):
        head = f"HTTP/1.1 {status}\r\nContent-Type: {kind}\r\nContent-Length: {len(body)}\r\n{more}\r\n"
        response = head.encode() + body
        self.digest.update(f"answer {line} {actor} {start} {len(response)}\n".encode() + response)

    def answer_tile(self, line, actor, start, result, number, tile):
        self.hits += result == "HIT"
        self.misses += result == "MISS"
        more = f"geowebcache-cache-result: {result}\r\ntile-render: {number}\r\n"
        self.answer(line, actor, start, "image/x-portable-pixmap", more, tile_text(number, tile))

    def answer_json(self, line, actor, text):
        self.others += 1
        self.answer(line, actor, line, "application/json", "", text.encode() + b"\n")

    def go_on(self, line, actor, start, tile, state):
        """The actor is answered a hit, or busy with what it goes on with."""
        if state[0] == "hit":
            self.answer_tile(line, actor, start, "HIT", state[1], tile)
        self.busy[actor] = None if state[0] == "hit" else (start, tile, state)

    def keep(self, line, actor, start, tile, number):
        self.cache.finish(number)
        self.answer_tile(line, actor, start, "MISS", number, tile)
        self.busy[actor] = None

    def give_up(self, line, actor, start, number):
        self.cache.abandon(number)
        self.others += 1
        self.answer(line, actor, start, "text/xml", "", FAILED, "500 Internal Server Error")
        self.busy[actor] = None

    def step(self, line, actor):
        start, tile, (state, value) = self.busy[actor]
        if state == "waits":
            self.go_on(line, actor, start, tile, self.cache.ask(tile, value))
        elif state == "holds":
            self.busy[actor] = (start, tile, ("rendered" if self.renders() else "failed", value))
        elif state == "rendered":
            self.keep(line, actor, start, tile, value)
        else:
            self.give_up(line, actor, start, value)

    def start(self, line, actor):
        kind, z = self.draw(16), self.draw(len(SPANS))
        tile = (z, self.draw(SIDES[z]), self.draw(SIDES[z]))
        if kind >= 14:
            self.answer_json(line, actor, f'{{"cut":{self.cache.truncate(z)}}}')
        elif kind >= 12:
            self.answer_json(line, actor, '{"within":true}')
        else:
            state = self.cache.ask(tile, kind == 11)
            if kind != 10 or state[0] != "holds":
                self.go_on(line, actor, line, tile, state)
            elif self.renders():
                self.keep(line, actor, line, tile, state[1])
            else:
                self.give_up(line, actor, line, state[1])

    def run(self, number):
        for line in range(1, LINES + 1):
            actor = self.draw(ACTORS)
            (self.step if self.busy[actor] else self.start)(line, actor)
        answers = self.hits + self.misses + self.others
        counts = f"answers {answers} hits {self.hits} misses {self.misses} other {self.others}"
        return f"drill {number} lines {LINES} {counts}\nsha256 {self.digest.hexdigest()}"


def main():
    number, fails = int(sys.argv[1]), (sys.argv[2:] or ["0"])[0]
    whole = Drill(number)
    text = whole.run(number)
    if fails == "each":
        for rendering in range(1, whole.renderings + 1):
            print(Drill(number, rendering).run(number))
    else:
        print(Drill(number, int(fails)).run(number) if int(fails) else text)


if __name__ == "__main__":
    main()
