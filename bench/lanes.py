"""Which crates of a program are proved side by side, and with how many jobs: by what each costs.

The toolchain's gate begins with the crates that most lines of code wait for, reckons memory by lines, and gives a crate one processor for as long as it is at
work where others wait at its start. So the first build of a program takes as long as its longest chain of crates, and processors are idle at its end. Here a
crate's costs are known (`bench/proof_costs`): those with the longest chain behind them come first, a crate gets as many jobs as stand there, and one beside
which few others are ready gets more. The checks themselves are those of the toolchain.
"""
import os
from concurrent.futures import FIRST_COMPLETED, ThreadPoolExecutor, wait

MOST_JOBS = 4
# How much more memory each further job takes, as a part of what one takes.
OF_A_JOB = 0.6
# What a crate without known costs is taken to cost, in seconds, and besides for each of its lines.
OF_A_CRATE, OF_A_LINE = 10.0, 0.1


def read_costs(path):
    """The processor seconds and the gigabytes that the proof of each crate takes with one job, and the jobs that it is to have, by its name."""
    costs = {}
    with open(path, encoding="utf-8") as it:
        for line in it:
            words = line.partition("#")[0].split()
            if words:
                costs[words[0]] = float(words[1]), float(words[2]), int(words[3]) if len(words) > 3 else 1
    return costs


def behind(tasks, seconds):
    """Of each task the seconds of the longest chain of tasks that begins with it."""
    found = dict(seconds)
    for key in reversed([*tasks]):
        for it in tasks[key][0]:
            found[it] = max(found[it], seconds[it] + found[key])
    return found


class Lanes:
    """The call `in_lanes` of a toolchain, by these costs: runs tasks side by side, and returns what each gave.

    A task has a key, the crate's name and what is done, and is what it waits for, its lines, its memory, and a call that takes what was given so far and a
    number of jobs. It comes after those that it waits for. Where tasks have another form, or the caller has set RT_JOBS, the toolchain's own call runs them.
    """

    def __init__(self, kit, costs):
        self.kit, self.costs, self.theirs = kit, costs, kit.in_lanes

    def __call__(self, tasks):
        is_known = all(isinstance(key, tuple) and len(key) == 2 and len(task) == 4 for key, task in tasks.items())
        if not is_known or os.environ.get("RT_JOBS"):
            return self.theirs(tasks)
        return Run(tasks, self.costs, self.kit.processors(), 0.85 * self.kit.free()).to_its_end()


class Run:
    """One run of tasks: which of them are left, which are at work, each with its memory, and what the others gave."""

    def __init__(self, tasks, costs, processors, memory):
        self.tasks, self.processors, self.memory = tasks, processors, memory
        self.seconds = {key: self.seconds_of(key, task[1], costs) for key, task in tasks.items()}
        self.needs = {key: 1e9 * costs[key[0]][1] if key[0] in costs else task[2] for key, task in tasks.items()}
        self.jobs = {key: costs[key[0]][2] if key[0] in costs else 1 for key in tasks}
        chains = behind(tasks, self.seconds)
        self.left, self.running, self.given = sorted(tasks, key=lambda it: -chains[it]), {}, {}

    def seconds_of(self, key, lines, costs):
        """What a proof costs. Any other task costs nothing: a program's crates are copied without tests and mutants, so such tasks end at once."""
        name, what = key
        if what != "proof":
            return 0.0
        return costs[name][0] if name in costs else OF_A_CRATE + OF_A_LINE * lines

    def to_its_end(self):
        with ThreadPoolExecutor(2 * self.processors) as pool:
            while self.left or self.running:
                self.begin_what_may(pool)
                for it in wait(self.running, return_when=FIRST_COMPLETED).done:
                    self.given[self.running.pop(it)[0]] = it.result()
        return self.given

    def begin_what_may(self, pool):
        """Begins the tasks that wait for nothing any more: those that cost nothing, and as many proofs as there are processors and memory."""
        ready = [it for it in self.left if all(below in self.given for below in self.tasks[it][0])]
        for key in ready:
            if not self.seconds[key]:
                self.begin(pool, key, 1, 0.0)
        proofs = [it for it in ready if self.seconds[it]]
        idle = self.processors - sum(1 for key, _ in self.running.values() if self.seconds[key])
        room = self.memory - sum(needs for _, needs in self.running.values())
        for at, key in enumerate(proofs):
            if idle and (self.needs[key] <= room or room == self.memory):
                jobs = self.jobs_of(key, idle // (len(proofs) - at), room)
                needs = self.needs[key] * (1 + OF_A_JOB * (jobs - 1))
                self.begin(pool, key, jobs, needs)
                idle, room = idle - 1, room - needs

    def jobs_of(self, key, share, room):
        """The jobs of a proof, by its share of the idle processors and the memory that is left."""
        wanted = max(min(self.jobs[key], self.processors), min(MOST_JOBS, share))
        return max(1, min(wanted, 1 + int((room / self.needs[key] - 1) / OF_A_JOB)))

    def begin(self, pool, key, jobs, needs):
        self.left.remove(key)
        self.running[pool.submit(self.tasks[key][3], self.given, jobs)] = key, needs
