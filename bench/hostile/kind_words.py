"""Words: random lists of words of the command line, without input. A list that is no command is refused and changes nothing."""
import random
import re
import time

from mutations import mutated
from program import Program

KIND = "words"
ENDS = {
    (b"schedule",): "0", (b"schedule", b"--kept"): "0", (b"replay",): "0", (b"replay", b"--kept"): "0", (b"make",): "0",
    (b"expire",): "0", (b"usage",): "0", (b"truncate",): "13 form not json ", (b"job",): "13 form not json ",
    (b"--help",): "0", (b"--version",): "0",
}
OTHERS = {b"drill", b"1", b"", b"-", b"--", b"-h", b"help", b"--kept=1", b"serve", b"--port", b"\xff", b"\xc3\xa9", b"a" * 5000}
WORDS = sorted({it for words in ENDS for it in words} | OTHERS)


NUMBERS = [b"0", b"1", b"007", b"999999999", b"1000000000", b"0000000001", b"", b"-1", b"+1", b"1.0", b"1 ", b"\xd9\xa1", b"x"]


def words_in(chance):
    way = chance.random()
    if way < 0.3:
        return list(chance.choice(sorted(ENDS)))
    if way < 0.5:
        return [b"drill", chance.choice(NUMBERS)]
    if way < 0.6:
        return [b"serve", chance.choice((b"--port", b"--connections")), chance.choice((b"1", b"0", b"x", b"", b"70000"))]
    return [chance.choice(WORDS) for _ in range(chance.choice((0, 1, 1, 2, 2, 3, 300)))]


def changed(chance, words):
    """The words, now and then with one more, one less, or one that is a little off."""
    way = chance.random()
    if way < 0.1:
        words.insert(chance.randrange(len(words) + 1), chance.choice(WORDS))
    elif way < 0.15 and words:
        words.pop(chance.randrange(len(words)))
    elif way < 0.3 and words:
        at = chance.randrange(len(words))
        words[at] = mutated(chance, words[at], 1).replace(b"\0", b"")
    return words


def expected(words):
    """The status. `serve` without both of its members is no command."""
    if len(words) == 2 and words[0] == b"drill" and re.fullmatch(rb"[0-9]{1,9}", words[1]):
        return "0"
    return ENDS.get(tuple(words), "2 usage")


def is_tried(words):
    """Whether the model knows the end: `serve` with many words may be served."""
    return words[:1] != [b"serve"] or len(words) <= 3


def run(tally, path, folder, seed, cases):
    folder.mkdir(parents=True, exist_ok=True)
    program, begun = Program(path, folder), time.monotonic()
    program.run("make")
    for number in range(cases):
        chance = random.Random(f"{seed} {KIND} {number}")
        words = changed(chance, words_in(chance))
        if not is_tried(words):
            continue
        before = (folder / "cache.disk").read_bytes()
        ran = program.run(*words)
        rule = ran.broken_rule((0, 2, 13)) or (None if ran.status == expected(words) else "another end")
        if not rule and ran.code == 2 and (ran.output or (folder / "cache.disk").read_bytes() != before):
            rule = "no command, and something was written"
        tally.count(KIND, ran.status)
        if rule:
            tally.finding(KIND, number, rule, words=b"\n".join(words), expected=expected(words), received=ran.status)
    print(f"{KIND}: {cases:,} in {time.monotonic() - begun:.0f} s", flush=True)
