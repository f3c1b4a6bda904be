"""The printers of one queue that wait for work at crates/shared_spool, as a model that is searched whole.

    python3 printers.py PRINTERS JOBS [FAULT]

A state has what each printer does (it waits in the line, was called and didn't look since, or has a page), whether each is
stopped, and how many jobs are ready, up to so many. A step is what one thread does under the lock: a printer looks (when its bell
was rung, or for no reason); its job ends, and a later one of the sender may be ready by that; its page fails, and it stops; a job is
received; jobs are removed; the queue is started. What a step calls, it rings.

In no state may a printer wait that isn't stopped while more jobs are ready than printers are on their way. Each fault (see FAULTS)
leaves something out of src/line.rt or of a call that rings: the search has to find a bad state then.
"""
import sys
from collections import deque

FAULTS = {
    "received-calls-nobody": "a job that is received calls no printer",
    "ended-calls-nobody": "a job that ends calls no printer",
    "start-calls-one": "a start calls one printer alone",
    "flag-stays": "a printer that was called stands in the line as before",
    "calls-stopped": "the first printer of the line is called though it is stopped",
}

WAITS, CALLED, BUSY = "waits", "called", "busy"


class Model:
    def __init__(self, printers, jobs, fault=None):
        self.count, self.most, self.fault = printers, jobs, fault

    def call(self, printers, jobs, most):
        """The printers after up to so many were called. Each of those that are called is served by its number."""
        printers = list(printers)
        for _ in range(most):
            for number, (does, stopped) in enumerate(printers):
                stands = does == WAITS or (does == CALLED and self.fault == "flag-stays")
                if stands and jobs > 0 and (not stopped or self.fault == "calls-stopped"):
                    printers[number] = (CALLED, stopped)
                    break
            else:
                break
        return tuple(printers)

    def put(self, printers, number, does, stopped):
        return printers[:number] + ((does, stopped),) + printers[number + 1:]

    def look(self, printers, jobs, number):
        """A printer comes for its next page, or wakes."""
        stopped = printers[number][1]
        if stopped or jobs == 0:
            return self.put(printers, number, WAITS, stopped), jobs
        return self.put(printers, number, BUSY, stopped), jobs - 1

    def ends(self, printers, jobs, number):
        """A printer's job ends, by its last page or by one that fails, and the printer comes for its next page."""
        most = 0 if self.fault == "ended-calls-nobody" else 1
        for ready in {jobs, min(jobs + 1, self.most)}:
            for stopped in (False, True):
                after = self.put(printers, number, BUSY, stopped)
                yield self.look(self.call(after, ready, most), ready, number)

    def nexts(self, state):
        printers, jobs = state
        for number, (does, _) in enumerate(printers):
            if does == BUSY:
                yield from self.ends(printers, jobs, number)
            else:
                yield self.look(printers, jobs, number)
        if jobs < self.most:
            most = 0 if self.fault == "received-calls-nobody" else 1
            yield self.call(printers, jobs + 1, most), jobs + 1
        for ready in range(self.most + 1):
            yield self.call(printers, ready, self.count), ready
        started = tuple((does, False) for does, _ in printers)
        yield self.call(started, jobs, 1 if self.fault == "start-calls-one" else self.count), jobs

    def begins(self):
        yield tuple((WAITS, False) for _ in range(self.count)), 0

    def fault_of(self, state):
        printers, jobs = state
        on_way = sum(does == CALLED and not stopped for does, stopped in printers)
        if (WAITS, False) in printers and jobs > on_way:
            return "a printer waits though a job is ready for it"
        return None


def search(model):
    """How many states there are up to the first bad one, and that one with what is bad of it."""
    seen = set(model.begins())
    todo = deque(seen)
    while todo:
        state = todo.popleft()
        fault = model.fault_of(state)
        if fault:
            return len(seen), fault, state
        for after in model.nexts(state):
            if after not in seen:
                seen.add(after)
                todo.append(after)
    return len(seen), None, None


def main(words):
    printers, jobs = int(words[0]), int(words[1])
    fault = words[2] if len(words) > 2 else None
    if fault is not None and fault not in FAULTS:
        sys.exit(f"no such fault; there are {', '.join(FAULTS)}")
    states, bad, state = search(Model(printers, jobs, fault))
    print(f"printers {printers}, jobs {jobs}, fault {fault or 'none'}: states {states}, {bad or 'none bad'}")
    if bad:
        print(state)
    # A fault that isn't found is as wrong as a bad state without one.
    return (bad is None) != (fault is None)


if __name__ == "__main__":
    sys.exit(main(sys.argv[1:]))
