"""The abstract machine as a program: which event may come in which state, and what it changes.

It says in Python what crates/exec_machine/specs says, of configurations in their ranges: there no deadline has passed
as its request is admitted, and none is beyond the wheel. `tools/example` replays whole logs on it to find the choices,
which a log doesn't tell.

A `World` is a state. `World.choices` lists the choices that may explain a line, the likeliest first. `World.take` takes
the line, or raises `Refused` with a few words that say why it may not come.

An action is a tuple: ("w", worker), ("x", caller), ("x", caller, "spawn", script), ("x", caller, "wake", task),
("c", by), ("k", request, result), ("b", worker), ("m", worker), ("e", worker), ("l", listener). An event is a tuple of
its word and operands, or ("refused",).
"""
from request_events import RequestEvents
from state import CLOSING, DONE, ENDED, LANDED, OPEN, State, Task, need
from task_events import TaskEvents

SERVICE = ("serve", "reap", "expire", "enrol", "grant", "cancel", "stage", "fire")
LEAVES_SERVICE = ("enter", "busy", "rouse")


class World(State, TaskEvents, RequestEvents):
    """A state, the choices of a line, and its effect."""

    def choices(self, action, event):
        """The choices that may explain the line, the likeliest first."""
        if action[0] != "w":
            return self.caller_choices(event)
        i = action[1]
        me = self.workers[i]
        kind = event[0]
        if kind == "turn":
            drains = me.phase == CLOSING and me.pool and not me.left and self.stopped
            return [("plain",), ("passes",)] if drains and not me.owed else [("plain",)]
        if kind == "wake":
            return self.wake_choices(i, event[1])
        if kind == "send":
            return self.send_choices(i, event[1], event[2])
        return [("plain",)]

    def wake_choices(self, i, t):
        me = self.workers[i]
        if me.polls is not None:
            return [("act",)]
        return [("paid", p) for p in self.payers(t, i)]

    def send_choices(self, i, j, m):
        act = self.workers[i].polls is not None
        if m != ("root",):
            return [("act",)] if act else [("owed",)]
        return [("act" if act else "owed", out) for out in self.left_out(j)]

    def left_out(self, j):
        """Whether a root message to this worker may have been left out, the likelier first."""
        return [True, False] if ("root",) in self.workers[j].inbox else [False]

    def caller_choices(self, event):
        return [("call", out) for out in self.left_out(event[1])] if event[0] == "send" else [("plain",)]

    def take(self, action, said, choice):
        """One line: raises Refused where it may not come."""
        if said == ("refused",):
            need(not self.enabled(action), "the step is enabled")
            return
        need(self.enabled(action), "the step is not enabled")
        kind = action[0]
        if kind == "w":
            self.work(action[1], said, choice)
        elif kind == "x":
            self.call(action, said, choice)
        elif kind == "c":
            need(said == ("clock",), "event of the clock")
            self.clock += action[1]
            for w in self.workers:
                if isinstance(w.rest, int) and w.rest <= self.clock:
                    w.rest = None
        elif kind == "k":
            need(said == ("land",), "event of a landing")
            r = self.requests[action[1]]
            r.phase, r.result = LANDED, action[2]
            me = self.workers[r.worker]
            me.landed.append(action[1])
            me.rest = None
        elif kind in "bm":
            need(said == ("set",), "event of a set")
            if kind == "b":
                self.workers[action[1]].busy = True
        elif kind == "e":
            need(said == ("stir",), "event of a stray wake")
            self.workers[action[1]].rest = None
        else:
            need(said == ("peer",), "event of a peer")
            self.peers[action[1]] += 1

    def call(self, action, e, choice):
        j = action[1]
        if len(action) > 2:
            if action[2] == "spawn":
                if self.set_closed:
                    need(e == ("closed",), "the set is closed")
                else:
                    need(e == ("spawn", len(self.tasks), action[3]), "the call is a spawn")
                    self.tasks.append(Task(action[3]))
            else:
                t = action[3]
                home = self.tasks[t].home
                if home is None:
                    need(e == ("wake", t), "the call is a wake")
                    self.wake(self.tasks[t])
                elif self.workers[home].mailbox_closed:
                    need(e == ("closed",), "the mailbox is closed")
                else:
                    need(e == ("send", home, ("root",)), "the call wakes a root")
                    need(not choice[1] or ("root",) in self.workers[home].inbox, "left out beside none")
                    self.post(home, ("root",), choice[1])
            self.callers[j] = "returning"
            return
        if e[0] == "turn":
            return
        if e[0] == "rouse":
            self.rouse(e[1])
            return
        need(e == ("return",), "a caller's event")
        self.callers[j] = None

    def work(self, i, e, choice):
        me = self.workers[i]
        was_serving = me.serving
        joining, me.joining = me.joining, None
        if joining is not None:
            need(e == ("turn",), "the line after a durable admit joins its gate")
            o = self.opens[self.requests[joining].target]
            o.waiting.append(joining)
        was_left, was_closing = me.left, me.phase == CLOSING
        getattr(self, "on_" + e[0].replace(" ", "_"))(i, me, e, choice)
        if e[0] in SERVICE:
            me.serving = True
        elif e[0] not in LEAVES_SERVICE:
            me.serving = False
        if e[0] == "serve" and not was_serving:
            me.sampled_before, me.sampled = me.sampled, self.clock
        if was_left and not me.mailbox_closed or not me.pool and was_closing:
            if not me.mailbox_closed:
                need(e == ("turn",), "the mailbox closes by a turn")
            me.mailbox_closed, me.inbox = True, []
        if i == 0 and was_closing and not self.queue_closed:
            need(e == ("turn",), "the global queue closes by a turn")
            self.queue_closed = True

    def at_large(self, me):
        need(me.polls is None, "in the middle of a poll")
        need(not me.owed, "messages are owed")

    def on_turn(self, i, me, e, choice):
        if choice[0] == "passes":
            self.at_large(me)
            need(me.phase == CLOSING and me.pool and not me.left and self.stopped, "passes the barrier")
            me.left = True

    def on_send(self, i, me, e, choice):
        j, m = e[1], e[2]
        need(not self.workers[j].mailbox_closed, "its inbox is closed")
        if m == ("root",):
            need(j != i, "the own root")
            left_out = choice[-1]
            need(not left_out or ("root",) in self.workers[j].inbox, "left out beside none")
            self.pay_root(me, j, choice)
            self.post(j, m, left_out)
            return
        if choice[0] == "owed":
            need(me.owed and me.owed[0] == (j, m), "not the first owed")
            me.owed.pop(0)
        elif m[0].startswith("forward"):
            self.forward(i, me, j, m)
        else:
            n, t = self.acting(me)
            word, p = self.next_word(t)
            need(word == ("drop",) and m == ("cancel", t.held[-1]), "another act")
            need(self.requests[m[1]].worker == j != i, "another worker")
            t.held.pop()
            t.place = p + 1
        self.post(j, m, False)

    def pay_root(self, me, j, choice):
        root = self.workers[j].root
        if choice[0] == "act":
            _, t = self.acting(me)
            word, p = self.next_word(t)
            need(word == ("wake", root), "another act")
            t.place = p + 1
        else:
            need(me.owed and me.owed[0] == (j, ("root",)), "not the first owed")
            me.owed.pop(0)

    def forward(self, i, me, j, m):
        n, t = self.polled(me)
        if m[0] == "forward timer":
            need(t.waiting == ("timer", m[1]), "doesn't wait for it")
            thing = self.sleepers[m[1]]
        else:
            need(t.held and t.held[-1] == m[1], "not the newest held")
            thing = self.requests[m[1]]
            if t.waiting != ("request", m[1]):
                word, p = self.next_word(t)
                need(t.waiting == ("nothing",) and word == ("await",), "doesn't wait for it")
                t.place = p + 1
                t.waiting = ("request", m[1])
            thing.waiter = n
        need(thing.worker == j != i and thing.forward == "unsent", "forwarded before, or not there")
        thing.forward = "sent"

    def on_apply(self, i, me, e, choice):
        self.at_large(me)
        need(me.phase == OPEN, "applies while closing")
        need(me.inbox and me.inbox[0] == e[1], "not the first message")
        m = me.inbox.pop(0)
        if m == ("root",):
            self.wake(self.tasks[me.root])
        elif m[0] == "cancel":
            self.let_go(m[1])
        elif m[0] == "cancel timer":
            z = self.sleepers[m[1]]
            z.removed = z.removed or not z.fired
        elif m[0] == "forward":
            self.requests[m[1]].forward = "applied"
        else:
            self.sleepers[m[1]].forward = "applied"

    def on_rouse(self, i, me, e, choice):
        self.rouse(e[1])

    def on_close(self, i, me, e, choice):
        self.at_large(me)
        need(me.phase == OPEN and self.tasks[me.root].phase == DONE, "its root isn't over")
        me.phase = CLOSING
        if i == 0:
            self.set_closed = True

    def on_stop(self, i, me, e, choice):
        self.at_large(me)
        need(i == 0 and me.phase == CLOSING and not self.stopped, "not worker zero's closing")
        self.stopped = True
        me.owed += [(j, ("root",)) for j in range(1, self.c["workers"])]

    def on_end(self, i, me, e, choice):
        self.at_large(me)
        need(me.phase == CLOSING and me.mailbox_closed, "not closing")
        need(all(r.released for r in self.requests if r.worker == i), "a request isn't released")
        if me.pool:
            need(all(w.left for w in self.pool), "not all have left")
            need(all(t.home is not None or t.phase == DONE for t in self.tasks), "a task is live")
        me.phase = ENDED
        me.inbox = []
        for n in self.asleep(i):
            self.sleepers[n].removed = True
