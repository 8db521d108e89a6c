"""Events of requests and sleepers, each of their own worker."""
from outcomes import is_dirty, judge
from state import CLOSING, FLYING, GATED, OPEN, QUEUED, STAGED, need


class RequestEvents:
    """Mixed into `World`."""

    def on_serve(self, i, me, e, choice):
        self.at_large(me)

    def on_grant(self, i, me, e, choice):
        self.at_large(me)
        r = self.requests[e[1]]
        need(r.worker == i and r.phase == GATED, "not gated here")
        o = self.opens[r.target]
        need(o.holder is None and o.waiting and o.waiting[0] == e[1], "the permit isn't its")
        o.waiting.pop(0)
        o.holder = e[1]
        outcome = o.failure
        if r.kind == "sync" and o.failure is None and not is_dirty(o):
            outcome = "ok"
        need((e[2] if len(e) > 2 else None) == outcome, "another outcome")
        if outcome is None:
            r.phase = QUEUED
            me.ready.append(e[1])
        else:
            self.account(r, outcome)
            self.resolve(e[1], outcome)

    def on_enrol(self, i, me, e, choice):
        self.at_large(me)
        need(me.fresh and me.fresh[0] == e[1], "not the first new deadline")
        r = self.requests[e[1]]
        need(r.phase == QUEUED, "not queued")
        me.fresh.pop(0)
        if r.deadline <= me.sampled:
            need(e[2:] == ("Timeout",), "its deadline has passed")
            self.resolve(e[1], "Timeout")
        else:
            need(len(e) == 2, "its deadline is ahead")
            r.timer = self.fires_at(r)

    def on_stage(self, i, me, e, choice):
        self.at_large(me)
        need(me.ready and me.ready[0] == e[1], "not the first ready")
        r = self.requests[e[1]]
        need(not r.cancelled, "cancelled")
        need(r.deadline is None or r.timer is not None, "its deadline isn't enrolled")
        need(self.in_flight(i) < self.ring, "the ring is full")
        me.ready.pop(0)
        r.phase = STAGED
        buffered = r.kind == "hint" or r.kind == "direct" and r.switched
        r.hinted = buffered and self.opens[r.target].hint

    def on_enter(self, i, me, e, choice):
        self.at_large(me)
        need(not me.busy, "the ring is busy")
        for r in self.requests:
            if r.worker == i and r.phase == STAGED:
                r.phase = FLYING
        me.untold = []

    def on_busy(self, i, me, e, choice):
        self.at_large(me)
        need(me.busy, "the ring isn't busy")
        me.busy = False

    def on_reap(self, i, me, e, choice):
        self.at_large(me)
        n, result = e[1], e[2]
        need(me.landed and me.landed[0] == n, "not the first landed")
        r = self.requests[n]
        need(r.result == result, "another result")
        outcome = self.outcome_next(n, result)
        raw, cursor = judge(r, result)
        need(e[3] == outcome, f"another outcome than {outcome}")
        me.landed.pop(0)
        if r.hinted and result == -95:
            self.opens[r.target].hint = False
        r.moved, r.switched, r.may_hint = cursor
        if outcome is None:
            r.phase, r.result = QUEUED, None
            me.ready.append(n)
        else:
            self.account(r, raw)
            self.resolve(n, outcome)

    def on_expire(self, i, me, e, choice):
        self.at_large(me)
        due = self.due(i, me.sampled)
        need(due, "nothing is due")
        tick = lambda m: (m - me.start) // self.c["tick"]
        round_ = tick(me.sampled_before) + self.slots <= tick(me.sampled)
        by_slot = lambda n: (tick(self.requests[n].timer) % self.slots, n)
        by_tick = lambda n: (self.requests[n].timer, n)
        need(min(due, key=by_slot if round_ else by_tick) == e[1], "another is due first")
        r = self.requests[e[1]]
        r.timer = None
        if r.phase == QUEUED:
            need(e[2:] == ("Timeout",), "it is over")
            self.resolve(e[1], "Timeout")
        else:
            need(len(e) == 2, "it is in flight")
            r.cancelled = True
            me.cancels.append(e[1])

    def on_cancel(self, i, me, e, choice):
        self.at_large(me)
        need(me.cancels and me.cancels[0] == e[1], "not the first cancel")
        me.cancels.pop(0)
        self.requests[e[1]].cancel_staged = True
        me.untold.append(e[1])

    def on_orphan(self, i, me, e, choice):
        self.at_large(me)
        need(me.phase == CLOSING and me.mailbox_closed, "not closing")
        r = self.requests[e[1]]
        need(r.worker == i and r.observed, "not observed here")
        outcome = self.let_go(e[1])
        need(e[2:] == ((outcome,) if outcome else ()), f"another outcome than {outcome}")

    def on_release(self, i, me, e, choice):
        self.at_large(me)
        need(me.ended and me.ended[0] == e[1], "not the first ended")
        me.ended.pop(0)
        self.requests[e[1]].released = True

    def on_fire(self, i, me, e, choice):
        self.at_large(me)
        need(me.phase == OPEN, "fires on a closing worker")
        asleep = self.asleep(i)
        need(e[1] in asleep, "not asleep here")
        z = self.sleepers[e[1]]
        need(z.until <= me.sampled, "not due")
        need(z.until == min(self.sleepers[n].until for n in asleep), "another is due first")
        z.fired = True

    def on_sleep(self, i, me, e, choice):
        self.at_large(me)
        moments = [r.timer for r in self.requests if r.worker == i and r.timer is not None]
        if me.phase == OPEN:
            moments += [self.sleepers[n].until for n in self.asleep(i)]
        u = min(moments) if moments else "ever"
        need(e[1] == u, f"sleeps until another moment than {u}")
        need(u == "ever" or u > self.clock, "that moment has come")
        me.rest = u
