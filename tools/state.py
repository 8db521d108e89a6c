"""A state of the abstract machine, and what happens to its parts."""
import copy
from dataclasses import dataclass, field

from outcomes import DISK, DURABLE, KEPT, is_lawful, judge, kept_as

LONGEST = 946_080_000_000_000_000  # the longest timeout, in nanoseconds
LAST_MOMENT = 2**62
OPEN, CLOSING, ENDED = "Open", "Closing", "Ended"
IDLE, QUEUED, RUNNING, NOTED, DONE = "Idle", "Queued", "Running", "Noted", "Done"
GATED, STAGED, FLYING, LANDED, RESOLVED = "Gated", "Staged", "Flying", "Landed", "Resolved"


@dataclass
class Worker:
    pool: bool
    root: int
    start: int = 0
    phase: str = OPEN
    left: bool = False
    rest: object = None  # None: awake; else the moment until which it sleeps, or "ever"
    sampled: int = 0
    sampled_before: int = 0
    serving: bool = False
    busy: bool = False
    polls: object = None
    mailbox_closed: bool = False
    inbox: list = field(default_factory=list)
    owed: list = field(default_factory=list)  # messages that it has yet to send: (worker, message)
    joining: object = None  # the durable request that joins its gate at the next line
    fresh: list = field(default_factory=list)  # to be enrolled
    ready: list = field(default_factory=list)  # to be staged
    landed: list = field(default_factory=list)
    cancels: list = field(default_factory=list)  # cancels that are to be staged
    untold: list = field(default_factory=list)  # cancels that are staged and not entered
    ended: list = field(default_factory=list)  # to be released


@dataclass
class Task:
    script: object  # a number, "root" (task zero), or "idle" (the roots of the other pool workers)
    home: object = None
    place: int = 0
    held: list = field(default_factory=list)
    phase: str = QUEUED
    runs_on: object = None
    cleared: bool = False
    waiting: tuple = ("nothing",)
    fresh: bool = False


@dataclass
class Request:
    worker: int
    kind: str
    target: int
    offset: int
    length: int
    deadline: object
    seen: int
    phase: str
    result: object = None
    outcome: object = None
    timer: object = None
    observed: bool = True
    cancelled: bool = False
    cancel_staged: bool = False
    released: bool = False
    waiter: object = None
    paid: int = 0
    forward: str = "unsent"
    moved: int = 0
    switched: bool = False
    may_hint: bool = True
    hinted: bool = False

    @property
    def skip(self):
        return self.offset % 4096 if self.kind == "direct" else 0


@dataclass
class Sleeper:
    until: int
    worker: int
    task: int
    fired: bool = False
    removed: bool = False
    forward: str = "unsent"
    paid: int = 0


@dataclass
class Open_:
    mutations: int = 0
    frontier: int = 0
    failure: object = None
    hint: bool = True
    holder: object = None
    waiting: list = field(default_factory=list)


class Refused(Exception):
    """The event may not come."""


def need(condition, words):
    if not condition:
        raise Refused(words)


class State:
    """All parts, by number."""

    def __init__(self, trace):
        self.c = trace.config
        self.scripts = trace.scripts
        self.root = trace.root
        self.clock = 0
        n = self.c["workers"]
        self.workers = [Worker(True, i) for i in range(n)]
        self.tasks = [Task("root" if i == 0 else "idle", i) for i in range(n)]
        self.requests, self.sleepers = [], []
        self.opens = [Open_() for _ in range(self.c["files"])]
        self.peers = [0] * self.c["sockets"]
        self.callers = [None] * 16  # None, or "returning"
        self.set_closed = self.queue_closed = self.stopped = False

    def clone(self):
        new = copy.copy(self)
        for name in ("workers", "tasks", "requests", "sleepers", "opens"):
            items = []
            for x in getattr(self, name):
                y = copy.copy(x)
                for k, v in x.__dict__.items():
                    if isinstance(v, list):
                        setattr(y, k, list(v))
                items.append(y)
            setattr(new, name, items)
        new.peers, new.callers = list(self.peers), list(self.callers)
        return new

    @property
    def pool(self):
        return self.workers[: self.c["workers"]]

    @property
    def ring(self):
        size = 1
        while size < self.c["ring"]:
            size *= 2
        return size

    @property
    def slots(self):
        ticks = -(-max(self.c["connect"], self.c["rw"]) // self.c["tick"]) + 2
        size = 1
        while size < ticks:
            size *= 2
        return size

    def words(self, t):
        if t.script == "root":
            return self.root
        if t.script == "idle":
            return [("await",)] if not self.stopped else [("end",)]
        return self.scripts[t.script]

    def next_word(self, t):
        """The next word that is an act, and its place."""
        if t.script == "idle":
            return self.words(t)[0], 0
        words, p = self.words(t), t.place
        while p < len(words):
            w = words[p]
            if w[0] == "drop" and not t.held or w[0] == "wake" and w[1] >= len(self.tasks):
                p += 1
            else:
                return w, p
        return ("end",), p

    def in_flight(self, i):
        return sum(r.worker == i and r.phase in (STAGED, FLYING, LANDED) for r in self.requests)

    def fires_at(self, r):
        start, tick = self.workers[r.worker].start, self.c["tick"]
        return start + -(-(r.deadline - start) // tick) * tick

    def due(self, i, moment):
        return [n for n, r in enumerate(self.requests) if r.worker == i and r.timer is not None and r.timer <= moment]

    def asleep(self, i):
        return [n for n, z in enumerate(self.sleepers) if z.worker == i and not z.fired and not z.removed]

    def held(self, i):
        """It stands at the shutdown barrier."""
        me = self.workers[i]
        return me.pool and me.left and not all(w.left for w in self.pool)

    def enabled(self, a):
        kind = a[0]
        if kind == "w":
            if a[1] >= len(self.workers):
                return False
            me = self.workers[a[1]]
            return me.rest is None and me.phase != ENDED and not self.held(a[1])
        if kind == "x":
            half = self.callers[a[1]] is not None
            if len(a) == 2:
                return half
            return not half and (a[2] == "spawn" or a[3] < len(self.tasks))
        if kind == "c":
            return self.clock + a[1] <= LAST_MOMENT
        if kind == "k":
            if a[1] >= len(self.requests):
                return False
            r = self.requests[a[1]]
            return r.phase == FLYING and is_lawful(r, a[2])
        if kind in "bm":
            return a[1] < len(self.workers) and self.workers[a[1]].phase != ENDED
        if kind == "e":
            return a[1] < len(self.workers) and self.workers[a[1]].rest is not None
        return a[1] < len(self.peers)

    def wake(self, t):
        t.phase = {IDLE: QUEUED, RUNNING: NOTED}.get(t.phase, t.phase)
        t.fresh = False

    def resolve(self, n, outcome):
        r = self.requests[n]
        me = self.workers[r.worker]
        r.phase, r.outcome, r.timer, r.result = RESOLVED, outcome, None, None
        for waiting in (me.fresh, me.ready, me.cancels, me.untold):
            if n in waiting:
                waiting.remove(n)
        me.ended.append(n)
        if r.kind in DURABLE and self.opens[r.target].holder == n:
            self.opens[r.target].holder = None

    def cancel_request(self, n):
        r = self.requests[n]
        if r.phase in (GATED, QUEUED):
            self.resolve(n, "Timeout")
            return "Timeout"
        if r.phase in (STAGED, FLYING, LANDED) and not r.cancelled:
            r.cancelled, r.timer = True, None
            self.workers[r.worker].cancels.append(n)
        return None

    def let_go(self, n):
        """Its owner lets go of a request; what this gives, if it is over by that."""
        r = self.requests[n]
        r.observed = False
        return None if r.kind in KEPT else self.cancel_request(n)

    def drop_all(self, i, t):
        """What a finished task held: at once on this worker, by a message elsewhere."""
        me = self.workers[i]
        for n in t.held:
            r = self.requests[n]
            if r.worker == i:
                self.let_go(n)
            else:
                me.owed.append((r.worker, ("cancel", n)))
        t.held = []
        if t.waiting[0] == "timer":
            z = self.sleepers[t.waiting[1]]
            if z.worker == i:
                z.removed = z.removed or not z.fired
            else:
                me.owed.append((z.worker, ("cancel timer", t.waiting[1])))

    def post(self, j, m, left_out):
        if not left_out:
            self.workers[j].inbox.append(m)

    def outcome_next(self, n, result):
        """The outcome that is told of one more result."""
        r = self.requests[n]
        outcome, _ = judge(r, result)
        if outcome == "ok" and r.kind in DURABLE and self.opens[r.target].failure is not None:
            return self.opens[r.target].failure
        return outcome

    def account(self, r, outcome):
        """What the end of a request makes of its open."""
        if r.kind not in DISK:
            return
        o = self.opens[r.target]
        if outcome == "ok":
            if r.kind == "write":
                o.mutations += 1
            if r.kind in ("sync", "many") and o.failure is None:
                o.frontier = max(o.frontier, r.seen)
            return
        poisons = r.kind in ("dsync", "sync") or (r.kind == "many" and r.switched)
        if r.kind in ("dsync", "many"):
            o.mutations += 1
        if poisons and o.failure is None:
            o.failure = kept_as(outcome)

    def thing(self, payer):
        return self.requests[payer[1]] if payer[0] == "request" else self.sleepers[payer[1]]

    def owes(self, thing, t, i):
        """A request or a sleeper owes task t a wake, which worker i may give."""
        is_request = isinstance(thing, Request)
        owner = self.workers[thing.worker]
        shut = owner.phase != OPEN
        whom = thing.waiter if is_request else thing.task
        if whom != t or not (thing.worker == i or shut):
            return False
        if is_request:
            over = thing.phase == RESOLVED or (thing.forward != "unsent" and not thing.observed)
        else:
            over = thing.fired or thing.removed
        if not (over or shut):
            return False
        return thing.paid == 0 or thing.paid == 1 and thing.forward == "applied"

    def payers(self, t, i):
        awaited = self.tasks[t].waiting
        found = [("request", n) for n, r in enumerate(self.requests) if self.owes(r, t, i)]
        found += [("sleeper", n) for n, z in enumerate(self.sleepers) if self.owes(z, t, i)]
        found.sort(key=lambda p: ((p[0] == "request" and awaited == ("request", p[1]))
                                  or (p[0] == "sleeper" and awaited == ("timer", p[1])), -p[1]), reverse=True)
        return found

    def pay(self, payer):
        if payer[0] == "request":
            self.requests[payer[1]].paid += 1
        elif payer[0] == "sleeper":
            self.sleepers[payer[1]].paid += 1

    def rouse(self, i):
        need(i < len(self.workers) and self.workers[i].rest is not None, "it doesn't sleep")
        self.workers[i].rest = None
