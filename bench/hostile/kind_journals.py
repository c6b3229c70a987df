"""Journals: files of caches with bytes changed, and what `usage`, `schedule --kept` and `truncate` make of them."""
import random
import time

import covers
from answers import answer, usage
from catalogues import DEMO, TIGHT, read
from journal import SLOT, Refusal, length_of, of_version_1, opened, record_near, slots_in
from pictures import block_of
from program import Program
from targets import address_in, names_in, sendable, path
from texts import cover_in

KIND = "journals"


class Base:
    """A catalogue, its folder, and images of caches that the program left there."""

    def __init__(self, program_path, folder, text, chance):
        folder.mkdir(parents=True, exist_ok=True)
        (folder / "catalogue.json").write_text(text)
        self.text, self.catalogue = text.encode(), read(text)
        self.program, self.disk, self.images = Program(program_path, folder), folder / "cache.disk", []
        for _ in range(3):
            self.program.run("make")
            for _ in range(6):
                self.work(chance)
                self.images.append(self.disk.read_bytes())
        self.images += [of_version_1(self.catalogue, it) for it in self.images[::3]]

    def work(self, chance):
        asked = [address_in(chance, self.catalogue) for _ in range(chance.choice((2, 8, 20)))]
        self.program.run("schedule", "--kept", data=b"".join(b"0 GET %s\n" % target_for(self.catalogue, it) for it in asked))
        for _ in range(chance.randrange(3)):
            self.program.run("truncate", data=cover_in(chance, self.catalogue))
        if chance.random() < 0.3:
            self.program.run("expire")


def target_for(catalogue, address):
    return b"/rest/wmts/" + b"/".join(names_in(catalogue, address)) + b".ppm"


def change_slots(chance, base, image):
    """A change that knows of slots: a gate, a slot or a half in another place, a header of another kind, or a record behind the last."""
    count = slots_in(base.catalogue)
    way, half = chance.randrange(7), chance.randrange(2) * count + 2
    first, second = (SLOT * (half + chance.randrange(min(count, 30))) for _ in range(2))
    if way == 0:
        image[first + 63] = chance.choice((0, 1, 1, 2, 255))
    elif way == 1:
        image[first:first + SLOT], image[second:second + SLOT] = image[second:second + SLOT], image[first:first + SLOT]
    elif way == 2:
        image[second:second + SLOT] = image[first:first + SLOT]
    elif way == 3:
        one, other = slice(SLOT * 2, SLOT * (2 + count)), slice(SLOT * (2 + count), SLOT * (2 + 2 * count))
        image[one], image[other] = image[other], image[one]
    elif way == 4:
        image[:SLOT], image[SLOT:2 * SLOT] = image[SLOT:2 * SLOT], image[:SLOT]
    elif way == 5:
        header = SLOT * chance.randrange(2)
        image[header + 7] = chance.choice(b"123")
        image[header + 15] = chance.choice((0, 1, 2, 3, 255))
    else:
        append_record(chance, base, image)


def append_record(chance, base, image):
    """Puts a record behind the last one of the first half, or of the second one."""
    start = SLOT * (2 + chance.choice((0, 0, 0, 1)) * slots_in(base.catalogue))
    while image[start + 63:start + 64] == b"\1":
        start += SLOT
    address = address_in(chance, base.catalogue)
    body = record_near(chance, base.catalogue, block_of(base.catalogue, address) if chance.random() < 0.8 else address)
    image[start:start + SLOT] = body.ljust(63, b"\0") + b"\1"


def change_bytes(chance, image, used):
    """A change that knows nothing of slots."""
    way, at = chance.randrange(6), chance.choice((chance.randrange(len(image)), chance.randrange(used), chance.randrange(min(130, used))))
    if way < 2:
        image[at] ^= 1 << chance.randrange(8)
    elif way == 2:
        image[at] = chance.randrange(256)
    elif way == 3:
        del image[chance.choice((at, at // SLOT * SLOT)):]
    elif way == 4:
        image += chance.randbytes(chance.choice((1, 64, 5000)))
    else:
        size = chance.choice((1, 8, 64, 640))
        image[at:at + size] = bytes(len(image[at:at + size]))


def changed(chance, base):
    image = bytearray(chance.choice(base.images))
    for _ in range(chance.choice((0, 1, 1, 1, 2, 3))):
        if chance.random() < 0.5 and len(image) >= length_of(base.catalogue):
            change_slots(chance, base, image)
        elif image:
            change_bytes(chance, image, min(len(image), 64 * 40))
    return bytes(image)


def expected_usage(cabinet, _):
    return usage(cabinet), "0"


def expected_schedule(cabinet, data):
    texts = [answer(cabinet, b"", b"GET", it[6:]) for it in data.splitlines()]
    return b"".join(b"answer %d 0 %d %d\n" % (line, line, len(it)) + it for line, it in enumerate(texts, 1)), "0"


def expected_truncate(cabinet, data):
    number = cabinet.cut(covers.read(cabinet.catalogue, data))
    return (b"", "9 cuts full") if number is None else (b"cut %d\n" % number, "0")


def valid_cover(chance, catalogue):
    while True:
        data = cover_in(chance, catalogue)
        try:
            covers.read(catalogue, data)
            return data
        except covers.Fault:
            pass


def steps_for(chance, base, image):
    """The words, their input and the model's end of them: what is kept is asked for, and tiles at random."""
    try:
        kept = list(opened(base.catalogue, base.text, image).kept)
    except Refusal:
        kept = []
    layers = base.catalogue.layers
    asked = [it._replace(row=it.row * layers[it.layer].meta_y, col=it.col * layers[it.layer].meta_x) for it in kept]
    asked = [target_for(base.catalogue, it) for it in asked] + [sendable(path(chance, base.catalogue)) for _ in range(6)]
    chance.shuffle(asked)
    lines = b"".join(b"0 GET %s\n" % it for it in asked)
    usage_step = (("usage",), b"", expected_usage)
    truncation = (("truncate",), valid_cover(chance, base.catalogue), expected_truncate)
    return [usage_step, (("schedule", "--kept"), lines, expected_schedule), truncation, usage_step]


def one_step(base, words, data, expect):
    """The run, and what it breaks."""
    before = base.disk.read_bytes()
    try:
        expected = expect(opened(base.catalogue, base.text, before), data)
    except Refusal as refusal:
        expected = b"", str(refusal)
    ran = base.program.run(*words, data=data)
    rule = ran.broken_rule((0, 8, 9))
    if not rule and (ran.output, ran.status) != expected:
        rule = "another answer"
    if not rule and ran.code == 8 and base.disk.read_bytes() != before:
        rule = "a refused file was changed"
    return ran, rule, {"file": before, "input": data, "words": " ".join(words), "expected": expected, "received": (ran.output, ran.status)}


def one_case(tally, chance, number, base):
    image = changed(chance, base)
    base.disk.write_bytes(image)
    statuses = []
    for words, data, expect in steps_for(chance, base, image):
        ran, rule, files = one_step(base, words, data, expect)
        statuses.append(" ".join(ran.status.split()[:3]) if ran.code else "0")
        if rule:
            tally.finding(KIND, number, f"{words[0]}: {rule}", catalogue=base.text, **files)
            break
    tally.count(KIND, *statuses)


def run(tally, path_to_program, folder, seed, cases):
    begun, chance = time.monotonic(), random.Random(f"{seed} {KIND}")
    bases = [Base(path_to_program, folder / name, text, chance) for name, text in (("demo", DEMO), ("tight", TIGHT))]
    for number in range(cases):
        chance = random.Random(f"{seed} {KIND} {number}")
        one_case(tally, chance, number, chance.choice(bases))
    print(f"{KIND}: {cases:,} in {time.monotonic() - begun:.0f} s", flush=True)
