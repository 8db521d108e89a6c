"""Traces and logs as values, and the replay of a whole log on the abstract machine."""
from abstract_machine import World
from state import Refused

OPERANDS = {"poll": 1, "send": 2, "recv": 2, "fill": 2, "conn": 1, "read": 3, "hint": 3, "direct": 3, "write": 3,
            "dsync": 3, "many": 3, "sync": 1, "await": 0, "drop": 0, "sleep": 1, "spawn": 1, "dedicated": 1, "wake": 1,
            "yield": 0, "end": 0, "fault": 1}
OF_ONE_NUMBER = ("begin", "pend", "done", "wake", "stage", "cancel", "drop", "release", "fire", "rouse", "clear")
OF_TWO_NUMBERS = ("fault", "spawn", "dedicated", "timer")
WITH_OUTCOME = ("grant", "enrol", "expire", "orphan")


def words_of(text):
    """The words of a script."""
    out, tokens = [], text.split()
    while tokens:
        word, *tokens = tokens
        n = OPERANDS[word]
        out.append((word, *map(int, tokens[:n])))
        tokens = tokens[n:]
    return out


class Trace:
    """What a trace sets up, and its steps: (action, how many of it)."""

    def __init__(self, text):
        self.config, self.scripts, self.root, self.steps = {}, [], [], []
        lines = iter([line for line in text.splitlines() if line and not line.startswith("#")])
        for line in lines:
            key, _, rest = line.partition(" ")
            if key == "steps":
                break
            if key == "script":
                self.scripts.append(words_of(rest))
            elif key == "root":
                self.root = words_of(rest)
            elif key == "spin":
                self.config[key] = tuple(map(int, rest.split()))
            else:
                self.config[key] = int(rest)
        for line in lines:
            tokens = line.split()
            if tokens[0] == "w":
                self.steps.append((("w", int(tokens[1])), int(tokens[2])))
            else:
                self.steps.append((step_of(line), 1))


def action_of(tokens):
    """The action at the head of a line, and the tokens after it."""
    kind = tokens[0]
    if kind == "x" and len(tokens) > 3 and tokens[2] in ("spawn", "wake") and len(tokens) != 4:
        return ("x", int(tokens[1]), tokens[2], int(tokens[3])), tokens[4:]
    if kind == "k":
        return ("k", int(tokens[1]), int(tokens[2])), tokens[3:]
    return (kind, int(tokens[1])), tokens[2:]


def step_of(line):
    """The action of a step line of a trace."""
    tokens = line.split()
    if tokens[0] == "x" and len(tokens) == 4:
        return ("x", int(tokens[1]), tokens[2], int(tokens[3]))
    return action_of(tokens)[0]


def message_of(tokens):
    if tokens[0] == "root":
        return ("root",)
    if tokens[1] == "timer":
        return (tokens[0] + " timer", int(tokens[2]))
    return (tokens[0], int(tokens[1]))


def event_of(tokens):
    """The event at the end of a log line."""
    kind, *rest = tokens
    if kind in OF_ONE_NUMBER:
        return (kind, int(rest[0]))
    if kind in OF_TWO_NUMBERS:
        return (kind, int(rest[0]), int(rest[1]))
    if kind in WITH_OUTCOME:
        return (kind, int(rest[0]), *([" ".join(rest[1:])] if rest[1:] else []))
    if kind == "admit":
        return (kind, int(rest[0]), rest[1], *([" ".join(rest[2:])] if rest[2:] else []))
    if kind == "wait":
        return (kind, None if rest[0] == "none" else int(rest[0]))
    if kind == "got" and rest[0] == "pass":
        return ("got", "pass")
    if kind == "got" and rest[0] == "timer":
        return ("got", "timer", int(rest[1]))
    if kind == "got":
        return ("got", int(rest[0]), " ".join(rest[1:]))
    if kind == "reap":
        outcome = " ".join(rest[2:])
        return (kind, int(rest[0]), int(rest[1]), None if outcome == "more" else outcome)
    if kind == "send":
        return (kind, int(rest[0]), message_of(rest[1:]))
    if kind == "apply":
        return (kind, message_of(rest))
    if kind == "sleep":
        return (kind, "ever" if rest[0] == "ever" else int(rest[0]))
    return (kind,)


def line_of(text):
    """A log line: its action and its event."""
    action, rest = action_of(text.split())
    return action, event_of(rest)


class NoRun(Exception):
    """The log is no run: the furthest line that was reached, and why it may not come there."""

    def __init__(self, at, text, words):
        super().__init__(f"line {at + 1}: {text}: {words}")
        self.at = at


def replay(trace, texts, tries=20000):
    """The choices of a whole log, found by trying the likeliest first and going back where it proves wrong."""
    lines = [line_of(text) for text in texts]
    world, choices, open_ends, furthest = World(trace), [], [], None
    untried = None
    while len(choices) < len(lines):
        n = len(choices)
        action, event = lines[n]
        if untried is None:
            untried = options(world, lines, n)
        words = "nothing explains it"
        while untried:
            choice, *untried = untried
            after = world.clone() if untried else world
            try:
                after.take(action, event, choice)
            except (Refused, IndexError) as refusal:  # what isn't there passes no test
                words = str(refusal)
                continue
            if untried:
                open_ends.append((choices[:n], world, untried))
            choices.append(choice)
            world, words = after, None
            break
        untried = None
        if words is None:
            continue
        if furthest is None or n > furthest.at:
            furthest = NoRun(n, texts[n], words)
        tries -= 1
        if not open_ends or tries == 0:
            raise furthest
        choices, world, untried = open_ends.pop()
    return choices


def options(world, lines, n):
    """The choices of a line, the likeliest first."""
    action, event = lines[n]
    if event == ("refused",):
        return [("plain",)]
    try:
        found = world.choices(action, event)
    except IndexError:
        return [("plain",)]
    return by_what_follows(world, lines, n, found) if len(found) > 1 and event == ("turn",) else found


def by_what_follows(world, lines, n, found):
    """Whether a turn passes the barrier: it does where the worker is held next. Else the worker closes its mailbox,
    lets go of requests and sleepers, takes its callbacks and begins a service, each by so many turns."""
    i = lines[n][0][1]
    following = [event for action, event in lines[n + 1:] if action == ("w", i)]
    if not following:
        return found
    if following[0] == ("refused",):
        return [("passes",)]
    turns = 0
    while turns < len(following) and following[turns] == ("turn",):
        turns += 1
    first = following[turns][0] if turns < len(following) else None
    expected = 1 if first == "orphan" else 2 + len(world.asleep(i))
    return found[::-1] if turns == expected else found
