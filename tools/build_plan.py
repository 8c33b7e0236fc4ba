"""Which crates are proved next, and how long it takes: the plan of build.py, which runs it.

Of the crates that can be proved now, that one is first which has the longest chain of others above it, by the time
that each took before. No run is shorter than that chain. So the first one has a place of its own, the most jobs, and
the processors before all others.
"""

import functools

# How long a crate takes of which nothing is known: the seconds of a processor, and those of the clock.
USUAL = (120.0, 120.0)
# The most jobs of a check, of the one that is first and of any other: more seldom help, and each wants memory.
JOBS, OTHERS_JOBS = 4, 2
# By how much the others leave the processors to the one that is first, as nice(1) counts it.
NICER = 5


class Plan:
    """The crates that are to be proved: which of them each stands on, how long it takes, and how far they are."""

    def __init__(self, uses, times, lanes):
        self.uses = {name: [it for it in below if it in uses] for name, below in uses.items()}
        self.times = {name: times.get(name, USUAL) for name in uses}
        self.lanes, self.waiting, self.running, self.done = lanes, [*uses], {}, {}
        self.chain = functools.cache(self.longest)

    def longest(self, name):
        """The seconds of the longest chain of crates that begins with this one."""
        above = [self.chain(other) for other, below in self.uses.items() if name in below]
        return self.times[name][1] + max(above, default=0)

    def first(self):
        """The crate with the longest chain, of all that are not done. All that it stands on is done."""
        return max([*self.waiting, *self.running], key=lambda it: (self.chain(it), it))

    def next(self):
        """The crates to begin with now. The one that is first finds a place always, so that none keeps it waiting."""
        ready = [it for it in self.waiting if all(below in self.done for below in self.uses[it])]
        others = [it for it in self.running if it != self.first()]
        found = []
        for name in sorted(ready, key=lambda it: (self.chain(it), it), reverse=True):
            if name == self.first():
                found.append(name)
            elif len(others) < self.lanes - 1:
                others.append(name)
                found.append(name)
        return found

    def share(self, name):
        """The jobs of a check that begins now, and by how much it leaves the processors to others."""
        if name == self.first():
            return min(self.lanes, JOBS), 0
        return min(max(1, self.lanes // 2), OTHERS_JOBS), NICER

    def begin(self, name, now):
        self.waiting.remove(name)
        self.running[name] = now

    def end(self, name, now):
        self.done[name] = now - self.running.pop(name)

    def left(self, now):
        """The seconds that are left: those of the longest chain, or of what is to be done in all, where that is more.
        They are longer or shorter as the crates that are done took longer or less than before."""
        before = sum(self.times[it][1] for it in self.done)
        pace = sum(self.done.values()) / before if before else 1
        undone = dict.fromkeys(self.waiting, 1.0)
        for name, began in self.running.items():
            undone[name] = max(0.0, 1 - (now - began) / pace / self.times[name][1])
        chain = max((self.chain(it) - self.times[it][1] * (1 - part) for it, part in undone.items()), default=0)
        work = sum(self.times[it][0] * part for it, part in undone.items())
        return pace * max(chain, work / self.lanes)


# The self-test: made-up crates, and a clock that goes on when a crate is done.


def gone_through(plan):
    """Goes through a plan, and answers the order in which its crates began and the time that it took."""
    now, order = 0.0, []
    while plan.waiting or plan.running:
        for name in plan.next():
            assert all(it in plan.done for it in plan.uses[name]), f"{name} began too early"
            order.append(name)
            plan.begin(name, now)
        assert len(plan.running) <= plan.lanes, f"{len(plan.running)} crates side by side"
        done = min(plan.running, key=lambda it: plan.running[it] + plan.times[it][1])
        now = plan.running[done] + plan.times[done][1]
        plan.end(done, now)
    return order, now


def self_test():
    uses = {"low": [], "lone": [], "side": ["low"], "mid": ["low"], "high": ["mid", "kit"]}
    uses["top"] = ["high", "side", "lone"]
    took = {"low": 10, "lone": 4, "side": 15, "mid": 20, "high": 30, "top": 5}
    times = {name: (seconds, seconds) for name, seconds in took.items()}
    assert gone_through(Plan(uses, times, 4)) == (["low", "lone", "mid", "side", "high", "top"], 65)
    order, whole = gone_through(Plan(uses, times, 1))
    assert whole == 84 and order[:2] == ["low", "mid"], (order, whole)
    assert sorted(gone_through(Plan(dict.fromkeys("abcdefgh", []), {}, 4))[0]) == [*"abcdefgh"]
    plan = Plan(uses, times, 2)
    assert plan.left(0) == 65 and Plan({}, {}, 4).left(0) == 0
    assert plan.share("low") == (2, 0) and plan.share("lone") == (1, NICER)
    plan.begin("low", 0)
    plan.end("low", 20)
    assert plan.left(20) == 110, "a machine of half the pace takes twice as long"
