"""The sessions that wait for a page at crates/shared_spool, as a model that is searched whole.

    python3 sessions.py SESSIONS EVENTS [FAULT]

A state has who stands in the line and how many events there were when each asked last; the events, and those at which the
round began; who is called; whose bell was rung since it asked; whose asking would be granted; and whether a page is free. A step
is what one thread does under the lock: a session asks (when it comes, when its bell was rung, or for no reason), or an event ends
that may have ended a wait. What an event grants is any set: the model knows no pages. It takes it that a grant makes nobody's
asking granted that wasn't (the law put_off_stays of crates/spool_laws), and that a page is free where one would be granted.

In no state may a session wait that would be granted while no bell is on its way, and who is called must stand in the line with
its bell rung. Each fault (see FAULTS) leaves something out of src/line.rt: the search has to find a bad state then.
"""
import sys
from collections import deque, namedtuple

FAULTS = {
    "grant-ends-round": "a session that was called and gets its page calls nobody",
    "later-ends-round": "a session that was called and has to wait on calls nobody",
    "no-second-round": "where all have asked since the round began, no round of the later events begins",
    "called-is-not-counted": "an event while one is called is not counted",
}

State = namedtuple("State", "line events round called rung granted free")


def subsets(members):
    members = sorted(members)
    for bits in range(1 << len(members)):
        yield frozenset(m for k, m in enumerate(members) if bits >> k & 1)


class Model:
    def __init__(self, sessions, events, fault=None):
        self.sessions, self.most, self.fault = range(sessions), events, fault

    def first(self, line, events):
        """The first in the order of the jobs' numbers that didn't ask since so many events. A job has its session's number."""
        return min((session for session, asked in line if asked < events), default=None)

    def go_on(self, line, events, round_, free):
        """The events at which the round began, and who is called."""
        if not line or not free:
            return round_, None
        called = self.first(line, round_)
        if called is None and self.fault != "no-second-round":
            round_ = events
            called = self.first(line, round_)
        return round_, called

    def rings(self, rung, called):
        return rung if called is None else rung | {called}

    def ask(self, s, session):
        """The states after a session has asked."""
        rung = s.rung - {session}
        others = tuple(place for place in s.line if place[0] != session)
        if session not in s.granted:
            line = tuple(sorted(others + ((session, s.events),)))
            yield self.passed(s, session, line, rung, s.granted, s.free, "later-ends-round")
            return
        for granted in subsets(s.granted):
            for free in (True,) if granted else (False, True):
                if s.line:
                    yield self.passed(s, session, others, rung, granted, free, "grant-ends-round")
                else:
                    yield s._replace(rung=rung, granted=granted, free=free)

    def passed(self, s, session, line, rung, granted, free, fault):
        """The state in which the call was passed on, if the session was called."""
        round_, called = s.round, s.called
        if called == session:
            called = None
            if self.fault != fault:
                round_, called = self.go_on(line, s.events, round_, free)
                rung = self.rings(rung, called)
        return State(line, s.events, round_, called, rung, granted, free)

    def event(self, s):
        """The states after pages came back or a need ended."""
        for granted in subsets(self.sessions):
            if not s.granted <= granted:
                continue
            for free in (True,) if granted or s.free else (False, True):
                after = s._replace(granted=granted, free=free)
                if not s.line or (s.called is not None and self.fault == "called-is-not-counted"):
                    yield after
                    continue
                after = after._replace(events=s.events + 1)
                if s.called is None:
                    round_, called = self.go_on(s.line, after.events, s.round, free)
                    after = after._replace(round=round_, called=called, rung=self.rings(s.rung, called))
                yield after

    def nexts(self, s):
        for session in self.sessions:
            yield from self.ask(s, session)
        if s.events < self.most:
            yield from self.event(s)

    def begins(self):
        for granted in subsets(self.sessions):
            for free in (True,) if granted else (False, True):
                yield State((), 0, 0, None, frozenset(), granted, free)

    def fault_of(self, s):
        waiting = {session for session, _ in s.line}
        if s.called is not None and s.called not in waiting & s.rung:
            return "who is called is not on its way"
        if waiting & s.granted and not waiting & s.rung:
            return "a session waits that would be granted"
        return None


def search(model):
    """How many states there are up to the first bad one, and that one with what is bad of it."""
    seen = set(model.begins())
    todo = deque(seen)
    while todo:
        state = todo.popleft()
        fault = model.fault_of(state)
        if fault:
            return len(seen), fault, state
        for after in model.nexts(state):
            if after not in seen:
                seen.add(after)
                todo.append(after)
    return len(seen), None, None


def main(words):
    sessions, events = int(words[0]), int(words[1])
    fault = words[2] if len(words) > 2 else None
    if fault is not None and fault not in FAULTS:
        sys.exit(f"no such fault; there are {', '.join(FAULTS)}")
    states, bad, state = search(Model(sessions, events, fault))
    print(f"sessions {sessions}, events {events}, fault {fault or 'none'}: states {states}, {bad or 'none bad'}")
    if bad:
        print(state)
    # A fault that isn't found is as wrong as a bad state without one.
    return (bad is None) != (fault is None)


if __name__ == "__main__":
    sys.exit(main(sys.argv[1:]))
