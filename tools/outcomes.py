"""What results a kernel may give for a request, and what they mean."""

CHUNK = 2_147_479_552  # whole pages of 4,096 bytes, as many as an i32 can say
DURABLE = ("dsync", "many", "sync")
DISK = ("read", "hint", "direct", "write", "dsync", "many", "sync")
KEPT = ("write", "dsync", "many", "sync")  # these go on without their owner
REGISTERS = ("poll", "send", "recv", "fill", "conn") + DISK
FAILED = {"send": "SendFailed", "recv": "RecvFailed", "fill": "RecvFailed", "read": "BlobInsufficientLength",
          "hint": "BlobInsufficientLength", "direct": "BlobInsufficientLength", "write": "WriteFailed",
          "dsync": "WriteFailed", "many": "WriteFailed"}


def part_now(r):
    """The kind and the length of the present part of a request."""
    if not r.switched:
        return r.kind, r.length + r.skip
    return {"direct": "read", "many": "sync"}.get(r.kind, r.kind), r.length


def is_lawful(r, n):
    if n < 0:
        return -n <= 4095
    kind, length = part_now(r)
    if kind in ("poll", "conn", "sync"):
        window = 2**31 - 1
    elif kind == "direct":
        window = min((length + 4095) // 4096 * 4096 - r.moved, CHUNK)
    else:
        window = min(length - r.moved, 2**32 - 1)
    return n <= min(window, 2**31 - 1)


def verdict(kind, n, cancelled):
    if n >= 0:
        if kind == "conn":
            return "ConnectionFailed" if n else "ok"
        if kind in ("poll", "sync"):
            return "ok"
        return "ok" if n else FAILED[kind]
    c = -n
    if kind == "conn" and c == 106:
        return "ok"
    if kind in ("conn", "poll", "send", "recv", "fill") and c == 125 and cancelled:
        return "Timeout"
    if kind in ("conn", "poll", "sync", "dsync"):
        return f"Io {c}"
    if kind in ("send", "recv", "fill", "write", "many"):
        return FAILED[kind]
    return "ReadFailed"


def judge(r, n):
    """What one more result gives: the outcome or None, and the cursor after it."""
    moved, switched, may_hint = r.moved, r.switched, r.may_hint
    undecided = "Timeout" if r.cancelled else None
    if r.hinted and n == -95 and may_hint:
        direct_now = r.kind == "direct" and not r.switched
        if not direct_now:
            return undecided, (moved, switched, False)
    kind, length = part_now(r)
    if n in (-4, -11) or (kind == "conn" and n == -114):
        return undecided, (moved, switched, may_hint)
    total = moved + max(n, 0) if kind not in ("conn", "poll", "sync") else moved
    complete = n > 0 and (kind in ("recv", "conn", "poll", "sync") or total >= length)
    if kind == "direct" and not complete and not (n == -125 or (n > 0 and n % 4096 == 0)):
        return undecided, (0, True, may_hint)
    if r.kind == "many" and not r.switched and complete:
        return undecided, (0, True, may_hint)
    if n <= 0 or complete:
        return verdict(kind, n, r.cancelled), (total, switched, may_hint)
    return undecided, (total, switched, may_hint)


def kept_as(outcome):
    return "BlobSyncFailed " + outcome[3:] if outcome.startswith("Io ") else outcome


def is_dirty(o):
    return o.mutations != o.frontier or o.mutations == 2**64 - 1
