"""That no party turns for ever, and that none sleeps on work: watched along a run."""
from state import CLOSING, DONE, ENDED, FLYING, GATED, LANDED, NOTED, OPEN, QUEUED, RESOLVED, RUNNING, STAGED

QUIET = ("turn", "serve", "enter", "busy")


class Unfinished(Exception):
    """Something is left to do where all sleep, or a stretch of quiet lines is too long."""


def bound(world):
    """Among so many lines of one party alone one isn't quiet."""
    budget, most, _, iterations = world.c["spin"]
    largest = most * iterations if budget * iterations else 0
    return 128 * world.c["workers"] + 16 * largest + 4 * (len(world.requests) + len(world.sleepers)) + 2048


def all_asleep(world):
    down = all(w.phase == ENDED or (w.rest is not None and w.phase == OPEN) for w in world.workers)
    return down and all(call is None for call in world.callers)


def of_tasks(world):
    for n, t in enumerate(world.tasks):
        if t.phase in (QUEUED, RUNNING, NOTED):
            yield f"task {n} is {t.phase}"
        elif t.phase != DONE:
            kind, *what = t.waiting
            if not t.fresh:
                yield f"task {n} was woken since its last poll began"
            if kind == "request" and world.requests[what[0]].phase == RESOLVED:
                yield f"request {what[0]} is over, for which task {n} waits"
            if kind == "timer" and world.sleepers[what[0]].fired:
                yield f"sleeper {what[0]} has fired, for which task {n} waits"


def of_workers(world):
    for n, w in enumerate(world.workers):
        if w.inbox:
            yield f"worker {n} has a message"
        if w.phase == OPEN and world.tasks[w.root].phase == DONE:
            yield f"worker {n} has to close"
        for r in w.untold:
            yield f"the kernel wasn't told to cancel request {r}"


def of_requests(world):
    for n, r in enumerate(world.requests):
        flies = r.phase in (STAGED, FLYING, LANDED)
        if r.phase == GATED and world.opens[r.target].holder is None:
            yield f"request {n} may have its permit"
        if r.phase == QUEUED and world.in_flight(r.worker) < world.ring:
            yield f"request {n} may be staged"
        if r.phase in (STAGED, LANDED):
            yield f"request {n} is {r.phase}"
        if r.phase != RESOLVED and not r.cancelled and r.deadline is not None and r.timer is None:
            yield f"request {n} isn't enrolled"
        if flies and r.cancelled and not r.cancel_staged:
            yield f"the cancel of request {n} isn't staged"
        if r.phase == RESOLVED and not r.released:
            yield f"request {n} isn't released"
        if r.timer is not None and r.timer <= world.clock:
            yield f"request {n} is due"


def of_sleepers(world):
    for n, z in enumerate(world.sleepers):
        if not z.fired and not z.removed and z.until <= world.clock:
            yield f"sleeper {n} is due"


def look(world, place):
    """Raises `Unfinished` where all sleep and something is left, or a closing worker sleeps for nothing."""
    if all_asleep(world):
        for part in (of_tasks, of_workers, of_requests, of_sleepers):
            for what in part(world):
                raise Unfinished(f"{place}: all sleep, and {what}")
    for n, w in enumerate(world.workers):
        waits = any(r.worker == n and r.phase != RESOLVED for r in world.requests)
        if w.phase == CLOSING and w.rest is not None and not waits:
            raise Unfinished(f"{place}: worker {n} closes and sleeps, and each of its requests is over")


class Stretch:
    """Quiet lines one after another of one party."""

    def __init__(self):
        self.party, self.count, self.most = None, 0, 0

    def add(self, world, action, event):
        """One more line, which is taken in this state."""
        if event == ("refused",):
            return
        if event[0] not in QUIET or any(w.phase == CLOSING for w in world.workers):
            self.party, self.count = None, 0
            return
        self.count = self.count + 1 if action[:2] == self.party else 1
        self.party = action[:2]
        self.most = max(self.most, self.count)
        if self.count >= bound(world):
            raise Unfinished(f"{self.count} quiet lines of {action[0]} {action[1]} in a row")
