"""A cabinet in memory: what is kept, which renders run, which truncations are in force, and the one counter of their numbers."""
from dataclasses import dataclass

from covers import contains, hits
from pictures import blob_length, block_of, part_of_blob, tile_text

ENDLESS = 1_000_000_000  # bytes of room


@dataclass
class Kept:
    """A kept metatile: the number of its render, its region, and its uses."""
    number: int
    place: int
    length: int
    last: int
    uses: int = 0


class Cabinet:
    def __init__(self, catalogue, opening=0):
        self.catalogue, self.number = catalogue, opening << 40
        self.kept, self.running, self.cuts = {}, {}, []
        self.overtaken, self.moment = set(), 0
        self.blobs = {}  # the bytes of what was kept before this opening, which may be any

    def next_number(self):
        self.number += 1
        return self.number

    def now(self):
        self.moment += 1
        return self.moment

    def is_running(self, block):
        return any(it == block and number not in self.overtaken for number, it in self.running.items())

    def start(self, block):
        """("busy", None), or ("ticket", number)."""
        if self.is_running(block):
            return "busy", None
        number = self.next_number()
        self.running[number] = block
        return "ticket", number

    def ask(self, address):
        """The same, or ("hit", number) where the tile's metatile is kept."""
        block = block_of(self.catalogue, address)
        kept = self.kept.get(block)
        if kept is None:
            return self.start(block)
        kept.uses, kept.last = kept.uses + 1, self.now()
        return "hit", kept.number

    def force(self, address):
        return self.start(block_of(self.catalogue, address))

    def gap(self, length):
        """The lowest place of so many bytes between what is kept, or None. Places aren't looked for where no case fills the room."""
        place = 0
        if self.catalogue.blob_bytes >= ENDLESS:
            return place
        for start, end in sorted((it.place, it.place + it.length) for it in self.kept.values()):
            if start - place >= length:
                return place
            place = max(place, end)
        return place if self.catalogue.blob_bytes - place >= length else None

    def finish(self, number):
        """Ends a render, and keeps its metatile where it may be kept."""
        block = self.running.pop(number)
        if number in self.overtaken:
            self.overtaken.remove(number)
            return
        others = len(self.kept) - (block in self.kept)
        place = self.gap(blob_length(self.catalogue, block))
        if others < self.catalogue.kept_limit and place is not None:
            self.blobs.pop(block, None)
            self.kept[block] = Kept(number, place, blob_length(self.catalogue, block), self.now())

    def tile(self, is_hit, number, address):
        """The bytes of a tile that an ask or a render gave."""
        block = block_of(self.catalogue, address)
        if is_hit and block in self.blobs:
            return part_of_blob(self.catalogue, self.blobs[block], address)
        return tile_text(self.catalogue, number, address)

    def purged(self, cover=None):
        """The truncations that stay, when one of this cover comes."""
        numbers = [it.number for it in self.kept.values()] + list(self.running)
        if not numbers:
            return []
        least = min(numbers)
        covers = [it for _, it in self.cuts] + ([cover] if cover else [])
        stays = [number >= least and not any(contains(later, it) for later in covers[at + 1:]) for at, (number, it) in enumerate(self.cuts)]
        return [it for it, stay in zip(self.cuts, stays) if stay]

    def purge(self):
        self.cuts = self.purged()

    def cut(self, cover):
        """The number of a truncation, or None where the list is full."""
        stay = self.purged(cover)
        if len(stay) >= self.catalogue.cut_limit:
            return None
        number = self.next_number()
        self.cuts = stay + [(number, cover)]
        self.drop([block for block in self.kept if hits(self.catalogue, cover, block)])
        self.overtaken |= {it for it, block in self.running.items() if hits(self.catalogue, cover, block)}
        return number

    def drop(self, blocks):
        for it in blocks:
            del self.kept[it]
            self.blobs.pop(it, None)

    def used(self, layer):
        return sum(it.length for block, it in self.kept.items() if layer in (None, block.layer))

    def exceeded(self):
        """The blocks of the first scope above its quota, or None."""
        for at, layer in enumerate(self.catalogue.layers):
            if layer.quota is not None and self.used(at) > layer.quota:
                return [block for block in self.kept if block.layer == at]
        if self.catalogue.quota is not None and self.used(None) > self.catalogue.quota:
            return list(self.kept)
        return None

    def expire(self):
        """The metatile that was dropped, or None."""
        scope = self.exceeded()
        if scope is None:
            return None
        by_uses = self.catalogue.policy == "lfu"
        victim = min(scope, key=lambda block: (self.kept[block].uses if by_uses else 0, self.kept[block].last, block))
        self.drop([victim])
        return victim
