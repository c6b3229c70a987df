"""Jobs of several members: which of a job's places took which of its numbers. A job takes as many numbers as it has renders, one after the other
without a gap, but its members take them in an order of their own; so a place's number is open until a tile of the place is seen."""
from bisect import bisect_left


def longest_fall(numbers):
    """How many of these numbers can be picked, in their order, so that each is below the one before."""
    ends = []
    for number in numbers:
        at = bisect_left(ends, -number)
        ends[at:at + 1] = [-number]
    return len(ends)


class Shared:
    """The renders of one job. `open` has each place that wasn't seen yet with one of the numbers that no seen place has, each of them once; it may
    turn out to be another of these. `seen` has the ranks of the other places, with their numbers."""

    def __init__(self, numbers, threads):
        self.open, self.threads, self.seen = dict(numbers), threads, {}
        self.ranks = {block: rank for rank, block in enumerate(numbers)}

    def place_with(self, number):
        """The place that has this number for now, or None where a seen place has it, or none of this job."""
        return next((block for block, its in self.open.items() if its == number), None)

    def may_have(self, block, number):
        """Whether so many members can have come to this. Places are begun in their order, and each member has one at a time and takes a greater
        number for its next one: so of places whose numbers fall, no two are one member's."""
        seen = sorted({**self.seen, self.ranks[block]: number}.items())
        return longest_fall(its for _, its in seen) <= self.threads


class Members:
    """The jobs of several members, whose places have open numbers."""

    def __init__(self):
        self.jobs = []

    def add(self, numbers, threads):
        """A job that was run, by the places that it rendered, in their order, each with a number."""
        if threads > 1 and numbers:
            self.jobs.append(Shared(numbers, threads))

    def see(self, cabinet, block, number):
        """Whether a kept metatile may have this number, with which a tile of it was answered. Then it has it from now on, and the place that had
        it for now, be its metatile kept or gone, takes the other one."""
        kept = cabinet.kept[block]
        job = next((it for it in self.jobs if it.open.get(block) == kept.number), None)
        if job is None:
            return number == kept.number
        other = job.place_with(number)
        if other is None or not job.may_have(block, number):
            return False
        if other in cabinet.kept and cabinet.kept[other].number == number:
            cabinet.kept[other].number = kept.number
        job.open[other] = kept.number
        job.seen[job.ranks[block]] = kept.number = number
        del job.open[block]
        return True
