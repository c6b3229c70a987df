"""What was tried and what was found: counts by kind and status, and each case that broke a rule, with the bytes that reproduce it."""
from collections import Counter, defaultdict

MOST_WRITTEN = 20  # findings of one kind and rule whose bytes are written


class Tally:
    def __init__(self, folder, seed):
        self.folder, self.seed = folder / "findings", seed
        self.cases, self.statuses, self.found = Counter(), defaultdict(Counter), Counter()

    def count(self, kind, *statuses):
        """One case of a kind, and the statuses that it came to."""
        self.cases[kind] += 1
        self.statuses[kind].update(str(it) for it in statuses)

    def finding(self, kind, case, rule, **files):
        """A case that broke a rule; `files` are the bytes that go with it."""
        self.found[kind, rule] += 1
        print(f"{kind} {case}: {rule}", flush=True)
        if self.found[kind, rule] > MOST_WRITTEN:
            return
        place = self.folder / f"{kind}-{case}-{self.found[kind, rule]}"
        place.mkdir(parents=True, exist_ok=True)
        (place / "rule").write_text(f"{rule}\nseed {self.seed}, kind {kind}, case {case}\n")
        for name, data in files.items():
            (place / name).write_bytes(data if isinstance(data, bytes) else repr(data).encode())

    def tell(self):
        """Prints the counts. Whether nothing was found."""
        print("\n| kind | cases | statuses | broke a rule |\n|---|--:|---|--:|")
        for kind, cases in self.cases.items():
            told = ", ".join(f"{status} {count:,}" for status, count in sorted(self.statuses[kind].items()))
            broke = sum(count for (it, _), count in self.found.items() if it == kind)
            print(f"| {kind} | {cases:,} | {told} | {broke:,} |")
        if self.found:
            print(f"\nThe bytes of what broke a rule are in {self.folder}, for the seed {self.seed}:")
            for (kind, rule), count in sorted(self.found.items()):
                print(f"- {kind}: {rule}: {count:,}")
        return not self.found
