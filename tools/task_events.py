"""Events of tasks: polls, acts, wakes, and what a closing pool clears."""
from outcomes import DISK, DURABLE, REGISTERS
from state import CLOSING, DONE, GATED, IDLE, LONGEST, NOTED, OPEN, QUEUED, RESOLVED, RUNNING
from state import Request, Sleeper, Task, Worker, need


class TaskEvents:
    """Mixed into `World`."""

    def polled(self, me):
        need(me.polls is not None, "polls nothing")
        t = self.tasks[me.polls]
        return me.polls, t

    def acting(self, me):
        n, t = self.polled(me)
        need(t.waiting == ("nothing",), "the task waits")
        return n, t

    def on_begin(self, i, me, e, choice):
        self.at_large(me)
        need(me.phase == OPEN, "begins on a worker that isn't open")
        t = self.tasks[e[1]]
        need(t.phase == QUEUED, "not queued")
        need(t.home == i if t.home is not None else me.pool, "not polled here")
        t.phase, t.runs_on, t.fresh = RUNNING, i, True
        if t.waiting == ("wake",):
            t.waiting = ("woken",)
        if t.waiting == ("yielded",):
            t.waiting = ("nothing",)
        me.polls = e[1]

    def may_pend(self, i, t):
        """Its poll may end: what it waits for isn't over here, or was forwarded."""
        kind, *what = t.waiting
        if kind == "request":
            r = self.requests[what[0]]
            return r.forward != "unsent" or r.worker == i and r.phase != RESOLVED
        if kind == "timer":
            z = self.sleepers[what[0]]
            return z.forward != "unsent" or z.worker == i and not z.fired and not z.removed
        return kind in ("wake", "yielded")

    def on_pend(self, i, me, e, choice):
        need(me.polls == e[1], "not polled")
        t = self.tasks[e[1]]
        need(self.may_pend(i, t), "the task may go on")
        if t.cleared:
            t.phase = DONE
            self.drop_all(i, t)
        else:
            t.phase = {RUNNING: IDLE, NOTED: QUEUED}[t.phase]
        t.runs_on = me.polls = None

    def finish(self, i, me, n):
        t = self.tasks[n]
        t.phase, t.runs_on, me.polls = DONE, None, None
        self.drop_all(i, t)

    def on_done(self, i, me, e, choice):
        n, t = self.acting(me)
        need(n == e[1] and self.next_word(t)[0][0] == "end", "not at its end")
        self.finish(i, me, n)

    def on_fault(self, i, me, e, choice):
        n, t = self.acting(me)
        need(n == e[1] and self.next_word(t)[0] == ("fault", e[2]), "no fault")
        self.finish(i, me, n)

    def on_admit(self, i, me, e, choice):
        n, t = self.acting(me)
        need(me.phase == OPEN, "registers on a closing worker")
        word, p = self.next_word(t)
        need(word[0] == e[2] and word[0] in REGISTERS, "another word")
        need(e[1] == len(self.requests), "the number of the request")
        kind, target = word[0], word[1]
        offset = word[2] if kind in DISK and kind != "sync" else 0
        length = {"poll": 1, "conn": 1, "sync": 1}.get(kind, word[-1])
        deadline = None
        if kind not in DISK:
            deadline = me.sampled + (self.c["connect"] if kind == "conn" else self.c["rw"])
        need(len(e) == 3, "a deadline never passes at admission here")
        seen = 0
        if kind in DISK:
            o = self.opens[target]
            if kind == "write":
                o.mutations += 1
            seen = o.mutations
        phase = GATED if kind in DURABLE else QUEUED
        self.requests.append(Request(i, kind, target, offset, length, deadline, seen, phase))
        t.held.append(e[1])
        t.place = p + 1
        if phase == GATED:
            me.joining = e[1]
        else:
            me.ready.append(e[1])
        if deadline is not None:
            me.fresh.append(e[1])

    def on_wait(self, i, me, e, choice):
        n, t = self.acting(me)
        word, p = self.next_word(t)
        need(word == ("await",), "another word")
        if e[1] is None:
            need(not t.held, "it holds a request")
            t.waiting = ("wake",)
        else:
            need(t.held and t.held[-1] == e[1], "not the newest held")
            r = self.requests[e[1]]
            need(r.worker == i and r.forward == "unsent", "on another worker, or forwarded")
            need(r.phase != RESOLVED, "it is over")
            r.waiter = n
            t.waiting = ("request", e[1])
        t.place = p + 1

    def on_got(self, i, me, e, choice):
        n, t = self.polled(me)
        if e[1] == "pass":
            if t.waiting != ("woken",):
                word, p = self.next_word(t)
                need(t.waiting == ("nothing",) and word == ("sleep", 0), "nothing passes")
                t.place = p + 1
            t.waiting = ("nothing",)
            return
        if e[1] == "timer":
            need(t.waiting == ("timer", e[2]), "doesn't wait for it")
            z = self.sleepers[e[2]]
            need(z.fired and self.reachable(i, z), "not fired, or elsewhere")
            t.waiting = ("nothing",)
            return
        r = self.requests[e[1]]
        need(r.phase == RESOLVED and r.outcome == e[2], "not over with this outcome")
        need(self.reachable(i, r), "on another worker")
        need(t.held and t.held[-1] == e[1], "not the newest held")
        if t.waiting != ("request", e[1]):
            word, p = self.next_word(t)
            need(t.waiting == ("nothing",) and word == ("await",), "doesn't wait for it")
            t.place = p + 1
        t.held.pop()
        t.waiting = ("nothing",)
        r.observed = False

    def reachable(self, i, thing):
        return thing.forward == "applied" or (thing.forward == "unsent" and thing.worker == i)

    def on_drop(self, i, me, e, choice):
        n, t = self.acting(me)
        word, p = self.next_word(t)
        need(word == ("drop",) and t.held[-1] == e[1], "another act")
        r = self.requests[e[1]]
        need(r.worker == i, "on another worker")
        self.let_go(e[1])
        t.held.pop()
        t.place = p + 1

    def on_timer(self, i, me, e, choice):
        n, t = self.acting(me)
        word, p = self.next_word(t)
        need(word[0] == "sleep" and word[1] > 0, "another word")
        need(e[1] == len(self.sleepers) and e[2] == me.sampled + min(word[1], LONGEST), "another sleeper")
        self.sleepers.append(Sleeper(e[2], i, n))
        t.waiting = ("timer", e[1])
        t.place = p + 1

    def on_wake(self, i, me, e, choice):
        t = self.tasks[e[1]]
        need(t.home is None or t.home == i, "a root is woken on its own worker")
        if choice[0] == "act":
            n, it = self.acting(me)
            word, p = self.next_word(it)
            need(word == ("wake", e[1]) or word == ("yield",) and n == e[1], "another act")
            it.place = p + 1
            if word == ("yield",):
                it.waiting = ("yielded",)
        else:
            self.at_large(me)
            need(self.owes(self.thing(choice[1]), e[1], i), "owes nothing")
            self.pay(choice[1])
        self.wake(t)

    def on_spawn(self, i, me, e, choice):
        n, t = self.acting(me)
        word, p = self.next_word(t)
        need(word == ("spawn", e[2]) and e[1] == len(self.tasks) and not self.set_closed, "no such spawn")
        self.tasks.append(Task(e[2]))
        t.place = p + 1

    def on_dedicated(self, i, me, e, choice):
        n, t = self.acting(me)
        word, p = self.next_word(t)
        need(word[0] == "dedicated" and not self.set_closed, "no dedicated worker")
        need(e[1] == len(self.tasks) and e[2] == len(self.workers), "another number")
        self.tasks.append(Task(word[1], e[2]))
        self.workers.append(Worker(False, e[1], self.clock, sampled=self.clock, sampled_before=self.clock))
        t.place = p + 1

    def on_closed(self, i, me, e, choice):
        _, t = self.acting(me)
        word, p = self.next_word(t)
        if word[0] in ("spawn", "dedicated"):
            need(self.set_closed, "the set is open")
        else:
            home = self.tasks[word[1]].home if word[0] == "wake" else None
            need(home is not None and home != i and self.workers[home].mailbox_closed, "no closed mailbox")
        t.place = p + 1

    def on_clear(self, i, me, e, choice):
        self.at_large(me)
        need(me.phase == CLOSING and me.pool and not me.left and self.stopped, "no drain")
        t = self.tasks[e[1]]
        need(t.home is None and not t.cleared, "a root, or cleared before")
        t.cleared = True
        if t.phase in (IDLE, QUEUED):
            t.phase = DONE
            self.drop_all(i, t)
