"""Traces, logs and choices as terms of exec_machine."""
from abstract_machine import World
from traces import line_of

KINDS = {"poll": "Poll", "send": "Send", "recv": "Recv", "fill": "Fill", "conn": "Connect", "read": "Read",
         "hint": "Hint", "direct": "Direct", "write": "Write", "dsync": "Dsync", "many": "Many", "sync": "Sync"}
WORDS = dict(KINDS, **{"await": "Await", "drop": "Drop", "sleep": "Sleep", "spawn": "Spawn", "dedicated": "Dedicated",
                       "wake": "Wake", "yield": "Yield", "end": "End", "fault": "Fault"})
MESSAGES = {"root": "Root", "forward": "ForwardRequest", "forward timer": "ForwardTimer", "cancel": "CancelRequest",
            "cancel timer": "CancelTimer"}


def apply(head, *operands):
    """A name with its operands, in brackets where it has any."""
    return head if not operands else "(" + " ".join([head, *map(str, operands)]) + ")"


def listed(items):
    return " ∷ ".join([*items, "[]"])


def option(value):
    return "None" if value is None else apply("Some", value)


def result(n):
    return apply("Count", n) if n >= 0 else apply("Errno", -n)


def outcome(text, target):
    """An outcome word; the open's number, which a kept failure has, isn't written in logs."""
    if text == "ok":
        return "Success"
    name, *code = text.split()
    cause = ["cause." + c if c.isalpha() else apply("cause.Code", c) for c in code]
    if name == "BlobSyncFailed":
        cause = [target, *cause]
    return apply("Failure", apply("error." + name, *cause))


def message(m):
    return apply("message." + MESSAGES[m[0]], *m[1:])


def word(w):
    return apply("word." + WORDS[w[0]], *w[1:])


def words(ws):
    return listed(map(word, ws))


def event(e, target):
    """An event. `target` gives the open of a request."""
    kind = e[0]
    if kind == "got":
        if e[1] == "pass":
            return "Pass"
        if e[1] == "timer":
            return apply("GotTimer", e[2])
        return apply("Got", e[1], outcome(e[2], target(e[1])))
    if kind == "admit":
        end = outcome(e[3], target(e[1])) if len(e) > 3 else None
        return apply("Admit", e[1], "kind." + KINDS[e[2]], option(end))
    if kind == "wait":
        return apply("Wait", option(e[1]))
    if kind in ("grant", "enrol", "expire", "orphan"):
        end = outcome(e[2], target(e[1])) if len(e) > 2 else None
        return apply(kind.capitalize(), e[1], option(end))
    if kind == "reap":
        end = None if e[3] is None else outcome(e[3], target(e[1]))
        return apply("Reap", e[1], result(e[2]), option(end))
    if kind == "send":
        return apply("Send", e[1], message(e[2]))
    if kind == "apply":
        return apply("Apply", message(e[1]))
    if kind == "sleep":
        return apply("Sleep", option(None if e[1] == "ever" else e[1]))
    return apply(kind.capitalize(), *e[1:])


def action(a):
    kind = a[0]
    if kind == "w":
        return apply("action.Work", a[1])
    if kind == "x":
        if len(a) == 2:
            return apply("action.GoOn", a[1])
        return apply({"spawn": "action.Spawn", "wake": "action.Wake"}[a[2]], a[1], a[3])
    if kind == "k":
        return apply("action.Land", a[1], result(a[2]))
    name = {"c": "Clock", "b": "SetBusy", "m": "EndPoll", "e": "Stir", "l": "Peer"}[kind]
    return apply("action." + name, a[1])


def payer(a, choice):
    """Who pays the wake of a line."""
    if choice[0] == "paid":
        return apply({"request": "ByRequest", "sleeper": "BySleeper"}[choice[1][0]], choice[1][1])
    return "ByCall" if a[0] == "x" else "ByStop" if choice[0] == "owed" else "ByAct"


def told(a, e, choice, target):
    """A line with its choice."""
    if e == ("refused",):
        return "refuses " + action(a)
    kind, text = e[0], event(e, target)
    if kind == "turn" and choice[0] == "passes":
        return f"passes {a[1]}"
    if kind == "wake":
        return f"pays {action(a)} {e[1]} {payer(a, choice)}"
    if kind == "send" and e[2] == ("root",):
        return f"posts {action(a)} {e[1]} {payer(a, choice)} {'true' if choice[-1] else 'false'}"
    if a[0] == "w":
        return f"does {a[1]} {text}"
    return f"says {action(a)} {text}"


USUAL = {"workers": 1, "interval": 31, "ring": 16, "tick": 5000000, "connect": 10000000, "rw": 10000000,
         "spin": (0, 0, 0, 0), "files": 1, "sockets": 1}


def configuration(c):
    """The usual configuration, with what is other in this one."""
    fields = [f"{k} = {c[k]}" for k in USUAL if k != "spin" and c[k] != USUAL[k]]
    if c["spin"] != USUAL["spin"]:
        budget, most, quick, iterations = c["spin"]
        spin = f"budget = {budget}; most = {most}; quick = {quick}; iterations = {iterations}"
        fields.append(f"spin = record {{ {spin} }}")
    return "record usual { " + "; ".join(fields) + " }" if fields else "usual"


def step(a, n):
    return f"step.Work {a[1]} {n}" if a[0] == "w" else f"step.One {action(a)}"


def laid_out(parts, indent, width=100):
    """Pieces of a list, as many in a row as have room."""
    rows, row = [], indent
    for piece in parts:
        if len(row) + len(piece) > width and row.strip():
            rows.append(row.rstrip())
            row = indent
        row += piece
    return "\n".join([*rows, row + "[]"])


def grouped(items):
    """Equal lines in a row are written once, with their number."""
    groups = []
    for item in items:
        if groups and groups[-1][0] == item:
            groups[-1][1] += 1
        else:
            groups.append([item, 1])
    return [f"times {n} ({item}) ++ " if n > 1 else f"{item} ∷ " for item, n in groups]


def example(name, trace, texts, choices):
    """The example, as a definition."""
    world, lines = World(trace), []
    for text, choice in zip(texts, choices):
        a, e = line_of(text)
        lines.append(told(a, e, choice, lambda r: world.requests[r].target))
        world.take(a, e, choice)
    steps = [step(a, n) + " ∷ " for a, n in trace.steps]
    return f"""abbrev pub {name} : Example
{name} =
    record {{
      plan =
        record {{
          config = {configuration(trace.config)};
          scripts ={scripts(trace.scripts)};
          root ={root(trace.root)};
        }};
      steps =
{laid_out(steps, " " * 8)};
      told =
{laid_out(grouped(lines), " " * 8)};
    }}"""


def root(ws):
    """The words of the root line, in rows of their own where they are many."""
    in_a_row = words(ws)
    return " " + in_a_row if len(in_a_row) < 90 else "\n" + laid_out([word(w) + " ∷ " for w in ws], " " * 12)


def scripts(scripts):
    """The scripts, each in a row of its own where they are long."""
    each = ["(" + words(ws) + ")" for ws in scripts]
    in_a_row = listed(each)
    if len(in_a_row) < 90:
        return " " + in_a_row
    return "\n" + "".join(f"            {it} ∷\n" for it in each) + "            []"


def imports(module, names):
    return f"use Rattle.{module}.{{{', '.join(names)}}}\n"


DECLARED = "exec_machine.specs.declared"
EVENTS = ("Turn Serve Begin Pend Done Fault Spawn Dedicated Closed Clear Admit Wait Got Drop Timer GotTimer Pass Grant "
          "Enrol Stage Enter Busy Reap Expire Cancel Orphan Release Fire Send Apply Rouse Sleep Close Stop End Return "
          "Land Clock Set Stir Peer").split()

# what a file of examples brings in
USES = "".join([
    imports("std.specs.Prelude", ["true", "false", "List", "[]", "◌∷◌", "◌++◌", "Some", "None"]),
    "use Rattle.exec_base.specs.declared.error.Error.TheVariants as error\n",
    "use Rattle.exec_base.specs.declared.error.Cause.TheVariants as cause\n",
    "use Rattle.exec_outcomes.specs.declared.outcome.Kind.TheVariants as kind\n",
    imports("exec_outcomes.specs.declared.outcome.OpResult.TheVariants", ["Count", "Errno"]),
    imports("exec_outcomes.specs.declared.outcome.Outcome.TheVariants", ["Success", "Failure"]),
    f"use Rattle.{DECLARED}.config.ScriptWord.TheVariants as word\n",
    f"use Rattle.{DECLARED}.step.Step.TheVariants as step\n",
    f"use Rattle.{DECLARED}.step.Action.TheVariants as action\n",
    f"use Rattle.{DECLARED}.state.MailMessage.TheVariants as message\n",
    imports(f"{DECLARED}.event.Event.TheVariants", EVENTS),
    imports("exec_machine.specs.Choice.Payer", ["ByRequest", "BySleeper", "ByAct", "ByCall", "ByStop"]),
    imports("exec_machine.specs.Examples",
            ["Example", "usual", "says", "does", "refuses", "passes", "pays", "posts", "times"]),
])
