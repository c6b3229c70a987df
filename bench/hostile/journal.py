"""The file of a cache, read as an opening reads it: a refusal, or what is kept and which truncations are in force."""
import hashlib
import struct
from fractions import Fraction

from cabinet import Cabinet, Kept
from catalogues import Address
from covers import Cover, hits
from pictures import blob_length

SLOT, MAGICS, FARTHEST, LAST_OPENING = 64, (b"WMTSJNL1", b"WMTSJNL2"), 10**17, 0xFFFFFF
META = struct.Struct(">HB4HBBII3s")
CUT = struct.Struct(">QHBBBB4qB4H")


class Refusal(Exception):
    """The fault's line."""


class Bad(Exception):
    """A record that no cache has."""


def demand(test):
    if not test:
        raise Bad


class Journal:
    """The records of a cache, replayed one by one."""

    def __init__(self, catalogue):
        self.catalogue, self.opening, self.floor = catalogue, None, 0
        self.kept, self.cuts = {}, []

    def replay(self, version, body):
        kind, rest = body[0], body[1:]
        ways = {1: self.opened, 2: self.stored, 3: self.dropped, 4: self.cut, 5: self.uses}
        demand(kind in ways and (version == 2 or kind != 5))
        ways[kind](version, rest)

    def given(self, number):
        return number >> 40 <= (self.opening or 0)

    def opened(self, _, rest):
        opening, floor, after = struct.unpack(">IQ50s", rest)
        demand(not any(after) and (self.opening is None or opening > self.opening))
        demand(floor >> 40 <= opening and all(floor < it.number for it in self.kept.values()))
        self.opening, self.floor = opening, max(self.floor, floor)

    def block(self, data):
        """The metatile that 24 bytes spell."""
        layer, style, *values, grid, z, row, col, after = META.unpack(data)
        layers, grids = self.catalogue.layers, self.catalogue.grids
        demand(not any(after) and layer < len(layers))
        demand(style < len(layers[layer].styles) and grid in layers[layer].grids and z < len(grids[grid].matrices))
        counts = [len(it.values) for it in layers[layer].dimensions]
        demand(all(value < most for value, most in zip(values, counts + [1] * 4)))
        matrix = grids[grid].matrices[z]
        demand(row * layers[layer].meta_y < matrix.rows and col * layers[layer].meta_x < matrix.cols)
        return Address(layer, style, tuple(values), grid, z, row, col)

    def stored(self, version, rest):
        number, meta, place, length, _, uses, after = struct.unpack(">Q24sQIQQ2s", rest)
        demand(not any(after) and (version == 2 or not any(rest[44:])))
        block = self.block(meta)
        others = {it: kept for it, kept in self.kept.items() if it != block}
        demand(length == blob_length(self.catalogue, block) and place + length <= self.catalogue.blob_bytes)
        demand(all(place + length <= it.place or it.place + it.length <= place for it in others.values()))
        demand(self.given(number) and number > self.floor and all(it.number != number for it in others.values()))
        demand(all(number > cut for cut, cover in self.cuts if hits(self.catalogue, cover, block)))
        demand(len(others) < self.catalogue.kept_limit)
        self.kept = {**others, block: Kept(number, place, length, 0, uses)}

    def kept_under(self, number, meta):
        block = self.block(meta)
        demand(block in self.kept and self.kept[block].number == number)
        return block

    def dropped(self, _, rest):
        number, meta, after = struct.unpack(">Q24s30s", rest)
        demand(not any(after))
        del self.kept[self.kept_under(number, meta)]

    def uses(self, _, rest):
        number, meta, uses, after = struct.unpack(">Q24sQ22s", rest)
        demand(not any(after))
        self.kept[self.kept_under(number, meta)].uses = uses

    def cut(self, _, rest):
        number, layer, grid, start, stop, has_box, *later = CUT.unpack(rest[:CUT.size])
        box, style, values = later[:4], later[4], later[5:]
        demand(not any(rest[CUT.size:]) and has_box in (0, 1) and (has_box or not any(box)))
        layers, grids = self.catalogue.layers, self.catalogue.grids
        demand(layer < len(layers) and grid in layers[layer].grids and max(start, stop) < len(grids[grid].matrices))
        counts = [len(it.values) for it in layers[layer].dimensions]
        demand(style <= len(layers[layer].styles) and all(value <= most for value, most in zip(values, counts + [0] * 4)))
        demand(all(abs(it) <= FARTHEST for it in box) and self.given(number) and all(number > it for it, _ in self.cuts))
        bounds = tuple(Fraction(it, 10**9) for it in box) if has_box else None
        cover = Cover(layer, grid, start, stop, bounds, style - 1 if style else None, tuple(it - 1 if it else None for it in values))
        self.cuts.append((number, cover))
        self.kept = {block: it for block, it in self.kept.items() if not hits(self.catalogue, cover, block)}


def slots_in(catalogue):
    """The slots of one half."""
    return 2 * (catalogue.kept_limit + catalogue.cut_limit) + 64


def length_of(catalogue):
    return SLOT * (2 + 2 * slots_in(catalogue))


def slots_of(image, first, count):
    part = image[SLOT * first:SLOT * (first + count)].ljust(SLOT * count, b"\0")
    return [part[at:at + SLOT] for at in range(0, len(part), SLOT)]


def half_in_force(image):
    """The number of the half, its version and its digest."""
    headers = slots_of(image, 0, 2)
    counts = [it[63] == 1 and it[:8] in MAGICS and not any(it[48:63]) for it in headers]
    if not any(counts):
        raise Refusal("8 not a cache")
    first, second = (int.from_bytes(it[8:16], "big") for it in headers)
    half = int(counts[1] and (not counts[0] or second == (first + 1) % 2**64))
    return half, MAGICS.index(headers[half][:8]) + 1, headers[half][16:48]


def bodies_in(catalogue, image, half):
    slots = slots_of(image, 2 + half * slots_in(catalogue), slots_in(catalogue))
    gates = [it[63] == 1 for it in slots]
    count = gates.index(False) if False in gates else len(gates)
    if any(gates[count:]):
        raise Refusal("8 not a cache")
    return [it[:63] for it in slots[:count]]


def replayed(catalogue, version, bodies):
    journal, last_cut = Journal(catalogue), None
    for slot, body in enumerate(bodies):
        try:
            journal.replay(version, body)
        except Bad as bad:
            raise Refusal(f"8 bad record {slot}") from bad
        if body[0] == 4:
            last_cut = slot
    return journal, last_cut


def opened(catalogue, text, image):
    """The cabinet that a file opens to under the catalogue of this text; Refusal where it is refused."""
    half, version, kept_digest = half_in_force(image)
    digest = hashlib.sha256(text).digest()
    if digest != kept_digest:
        raise Refusal(f"8 catalogue differs {kept_digest.hex()} {digest.hex()}")
    journal, last_cut = replayed(catalogue, version, bodies_in(catalogue, image, half))
    cabinet = Cabinet(catalogue)
    cabinet.kept, cabinet.cuts = journal.kept, journal.cuts
    cabinet.purge()
    if len(cabinet.cuts) > catalogue.cut_limit:
        raise Refusal(f"8 bad record {last_cut}")
    opening = (journal.opening or 0) + 1
    if opening > LAST_OPENING:
        raise Refusal("8 openings spent")
    cabinet.number = opening << 40
    for it in cabinet.kept.values():
        it.last = cabinet.now()
    blobs = image[length_of(catalogue):]
    cabinet.blobs = {block: blobs[it.place:it.place + it.length].ljust(it.length, b"\0") for block, it in cabinet.kept.items()}
    return cabinet


def of_version_1(catalogue, image):
    """The same cache as an earlier program would have left it: without moments, and without uses."""
    half, _, _ = half_in_force(image)
    bodies = [it for it in bodies_in(catalogue, image, half) if it[0] != 5]
    slots = [(it[:45].ljust(63, b"\0") if it[0] == 2 else it) + b"\1" for it in bodies]
    start, size = SLOT * (2 + half * slots_in(catalogue)), SLOT * slots_in(catalogue)
    headers = image[:SLOT * 2].replace(MAGICS[1], MAGICS[0])
    return headers + image[SLOT * 2:start] + b"".join(slots).ljust(size, b"\0") + image[start + size:]


def spelled_block(block):
    return META.pack(block.layer, block.style, *block.values, block.grid, block.z, block.row, block.col, bytes(3))


def cut_near(chance, number, block):
    """The fields of a Cut."""
    edges = (0, 10**9, -10**9, 16 * 10**9, FARTHEST, FARTHEST + 1)
    box = [chance.choice(edges) for _ in range(4)] if chance.random() < 0.5 else [0] * 4
    has_box, zooms = chance.choice((int(any(box)), 1)), [chance.choice((0, block.z, block.z + 1)) for _ in range(2)]
    style, values = chance.choice((0, block.style + 1)), [chance.choice((0, 0, it + 1)) for it in block.values]
    return CUT.pack(number, block.layer, block.grid, *zooms, has_box, *box, style, *values)


def record_near(chance, catalogue, block):
    """A body that may well be a record that the cache can have."""
    number = (chance.choice((0, 1, 1, 2, 3, 40)) << 40) + chance.choice((0, 1, 2, 3, 5, 9, 20, 2**40 - 1))
    key, kind, uses = spelled_block(block), chance.randrange(1, 6), chance.choice((0, 1, 2**64 - 1))
    if kind == 1:
        return struct.pack(">BIQ", 1, chance.choice((0, 1, 2, 5, 9, 99, LAST_OPENING - 1, LAST_OPENING, 2**32 - 1)), number)
    if kind == 2:
        length = max(blob_length(catalogue, block) + chance.choice((0, 0, 0, 0, 1, -1)), 0)
        place = chance.choice((0, 23, 46, 92, max(catalogue.blob_bytes - length, 0), 2**63))
        return struct.pack(">BQ24sQIQQ", 2, number, key, place, length, 7, uses)
    if kind == 4:
        return b"\4" + cut_near(chance, number, block)
    return struct.pack(">BQ24s", 3, number, key) if kind == 3 else struct.pack(">BQ24sQ", 5, number, key, uses)
