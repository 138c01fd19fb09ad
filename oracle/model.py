#!/usr/bin/env python3
"""The rules of the cache on plain lists, written from the rules and not from any program.

Reads a list of calls on standard input and prints a line for each, in the common format.
With --table it prints on standard error how often each rule was reached.
"""
import re
import sys
from collections import Counter

MOST_SLOTS = 1048576
MOST_ITEMS = 1048576
MOST_CAPACITY = 2**53
HOT, COLD = "hot", "cold"

reached = Counter()


def reach(rule):
    reached[rule] += 1


def nearest(top, bottom):
    """The fraction rounded to 53 bits, ties to even, as a fraction; no overflow or underflow here."""
    if top == 0:
        return 0, 1
    shift = 54 - (top.bit_length() - bottom.bit_length())
    while True:
        if shift >= 0:
            whole, rest = divmod(top << shift, bottom)
            scale = bottom
        else:
            scale = bottom << -shift
            whole, rest = divmod(top, scale)
        if whole.bit_length() <= 53:
            break
        shift -= whole.bit_length() - 53
    if 2 * rest > scale or (2 * rest == scale and whole % 2 == 1):
        whole += 1
    return (whole, 1 << shift) if shift >= 0 else (whole << -shift, 1)


def product(number, part):
    """A whole number times a 64-bit float, rounded once."""
    top, bottom = part
    return nearest(number * top, bottom)


def dropped(fraction):
    return fraction[0] // fraction[1]


def limited(target, capacity):
    return min(max(target, min(1, capacity)), capacity)


class Record:
    __slots__ = ("id", "weight", "pinned", "trim")

    def __init__(self, id, weight, pinned, trim):
        self.id, self.weight, self.pinned, self.trim = id, weight, pinned, trim

    def __str__(self):
        trim = "-" if self.trim is None else f"{self.trim[0]}{'p' if self.trim[1] else ''}"
        return f"{self.id}:{self.weight}{'p' if self.pinned else ''}:{trim}"


class Resident:
    def __init__(self, key, record, weight, state, reads):
        self.key, self.record, self.weight, self.state, self.reads = key, record, weight, state, reads


class Placeholder:
    def __init__(self, key, state, number):
        self.key, self.state, self.number = key, state, number


class Ghost:
    def __init__(self, hash):
        self.hash = hash


class Refusal(Exception):
    pass


def refuse(number, record=None):
    raise Refusal(f"refused {number}" if record is None else f"refused {number} {record}")


def turn_out(ring, entry):
    at = ring.index(entry)
    if at:
        reach("turned out from the middle or the end of a ring")
    ring[:] = ring[at + 1 :] + ring[:at]


class Cache:
    def __init__(self, modes, hash, slots, capacity, items, hot, ghost):
        if capacity > MOST_CAPACITY:
            reach("settings refused 1")
            refuse(1)
        if items > MOST_ITEMS:
            reach("settings refused 2")
            refuse(2)
        if not (0 <= hot <= 1 and 0 <= ghost <= 1):
            reach("settings refused 3")
            refuse(3)
        self.modes, self.hash = modes, hash
        self.slots = min(slots, MOST_SLOTS)
        self.capacity = capacity
        self.target = limited(dropped(product(capacity, hot.as_integer_ratio())), capacity)
        self.bound = dropped(product(items, ghost.as_integer_ratio()))
        self.rings = {HOT: [], COLD: []}
        self.ghosts = []
        self.residents = []
        self.placeholders = []
        self.next_ticket = 1
        self.open_tickets = set()
        self.edit = None
        self.events = []
        reach("a cache made")
        if capacity == 0:
            reach("a cache of capacity 0 made")

    # What a call brings: weigher and lifecycle.

    def weigh(self, key, record):
        if self.modes["weigher"] == "data":
            return record.weight
        return min(record.weight + key % 3, 2**32 - 1)

    def pinned(self, key, record):
        life = self.modes["lifecycle"]
        if life == "plain":
            return False
        return record.pinned or (life != "data" and life == key)

    def trimmed(self, key, record):
        after = record
        if self.modes["lifecycle"] != "plain" and record.trim is not None:
            after = Record(record.id, record.trim[0], record.trim[1], record.trim)
        self.events.append(f" | trim {key} {record} {after}")
        return after

    def hook(self, state, key, record):
        self.events.append(f" | {state} {key} {record}")

    # The state.

    def weight_of(self, state):
        return sum(r.weight for r in self.rings[state])

    def total(self):
        return self.weight_of(HOT) + self.weight_of(COLD)

    def full(self):
        return len(self.residents) + len(self.placeholders) + len(self.ghosts) >= self.slots

    def resident(self, key):
        return next((r for r in self.residents if r.key == key), None)

    def find(self, key):
        for entry in self.residents + self.placeholders:
            if entry.key == key:
                return entry
        hash = self.hash(key)
        return next((g for g in self.ghosts if g.hash == hash), None)

    def delete(self, resident):
        self.residents.remove(resident)
        if resident.weight:
            self.rings[resident.state].remove(resident)

    def enter(self, resident):
        self.residents.append(resident)
        if resident.weight:
            self.rings[resident.state].append(resident)
        else:
            reach("entered with weight 0")

    def take_weight(self, resident, weight, where):
        """The new weight of a resident that stays: from 0 appended, to 0 turned out."""
        ring = self.rings[resident.state]
        if resident.weight == 0 and weight:
            reach(f"{where}: weight 0 to more, {resident.state}")
            ring.append(resident)
        elif resident.weight and weight == 0:
            reach(f"{where}: weight more to 0, {resident.state}")
            turn_out(ring, resident)
        resident.weight = weight

    # The hands.

    def hot_hand(self):
        ring = self.rings[HOT]
        if not ring:
            reach("hot hand: empty ring, answers no")
            return False
        if all(self.pinned(r.key, r.record) for r in ring):
            reach("hot hand: wholly pinned, answers no")
            for r in ring:
                if r.reads:
                    reach("hot hand: a pinned one of a wholly pinned ring loses a read")
                    r.reads -= 1
            return False
        at = steps = 0
        while True:
            r = ring[at]
            pinned = self.pinned(r.key, r.record)
            if r.reads:
                reach("hot hand: a pinned one loses a read" if pinned else "hot hand: one loses a read")
                r.reads -= 1
            elif pinned:
                reach("hot hand: a pinned one passed")
            else:
                break
            steps += 1
            at = (at + 1) % len(ring)
        if steps >= len(ring):
            reach("hot hand: more than one lap")
        turn_out(ring, r)
        r.record = self.trimmed(r.key, r.record)
        r.weight = self.weigh(r.key, r.record)
        if r.weight == 0:
            reach("hot hand: trimmed to 0, stays")
        else:
            reach("hot hand: evicted")
            self.residents.remove(r)
            self.hook(HOT, r.key, r.record)
        return True

    def cold_hand(self):
        ring = self.rings[COLD]
        if not ring:
            reach("cold hand: empty ring, the hot hand steps")
            return self.hot_hand()
        for r in ring:
            if r.reads:
                reach("cold hand: promoted, pinned" if self.pinned(r.key, r.record) else "cold hand: promoted")
                r.reads -= 1
                turn_out(ring, r)
                r.state = HOT
                self.rings[HOT].append(r)
                while self.weight_of(HOT) > self.target:
                    reach("cold hand: the hot hand steps after a promotion")
                    if not self.hot_hand():
                        break
                return True
            if self.pinned(r.key, r.record):
                reach("cold hand: a pinned one passed")
                continue
            turn_out(ring, r)
            r.record = self.trimmed(r.key, r.record)
            r.weight = self.weigh(r.key, r.record)
            if r.weight == 0:
                reach("cold hand: trimmed to 0, stays")
                return True
            reach("cold hand: evicted, a ghost appended")
            self.residents.remove(r)
            self.ghosts.append(Ghost(self.hash(r.key)))
            if len(self.ghosts) > self.bound:
                reach("cold hand: the oldest ghost goes by the bound")
                self.ghosts.pop(0)
            self.hook(COLD, r.key, r.record)
            return True
        reach("cold hand: wholly pinned, the hot hand steps")
        return self.hot_hand()

    def shrink(self, entering=0):
        while self.total() + entering > self.capacity:
            if not self.cold_hand():
                reach("shrink: ends above the capacity")
                break

    # The calls.

    def admit(self, key, record, call):
        """Record and weight after admission, and whether it is still above the target."""
        weight = self.weigh(key, record)
        if weight <= self.target:
            return record, weight, False
        if self.pinned(key, record):
            reach(f"{call}: pinned above the target, admitted")
            return record, weight, False
        record = self.trimmed(key, record)
        weight = self.weigh(key, record)
        above = weight > self.target
        reach(f"{call}: above the target after its trim" if above else f"{call}: trimmed to the target, goes on")
        return record, weight, above

    def offer(self, key, record, replace, soft):
        call = "replace" if replace else "insert"
        found = self.find(key)
        if not replace and found is None and self.full():
            reach("insert refused 4")
            refuse(4, record)
        record, weight, above = self.admit(key, record, call)
        if above:
            if isinstance(found, Resident):
                reach(f"{call}: above the target, the {found.state} resident goes to its hook")
                self.delete(found)
                self.hook(found.state, found.key, found.record)
            elif found is not None:
                reach(f"{call}: above the target, a {type(found).__name__.lower()} of its key stays")
            if replace:
                reach("replace refused 5")
                refuse(5, record)
            self.hook(COLD, key, record)
            return
        if isinstance(found, Resident):
            reach(f"{call}: {found.state} resident replaced" + (", soft" if soft else ""))
            old = found.record
            if not soft:
                found.reads = min(found.reads + 1, 2)
            self.take_weight(found, weight, call)
            found.key, found.record = key, record
            self.hook(found.state, key, old)
            self.shrink()
            return
        if replace:
            what = "nothing" if found is None else f"a {type(found).__name__.lower()}"
            reach(f"replace refused 6, {what} found")
            refuse(6, record)
        if isinstance(found, Ghost):
            reach("insert: a ghost revived as hot")
            self.ghosts.remove(found)
            self.enter(Resident(key, record, weight, HOT, 0))
            self.shrink()
        elif isinstance(found, Placeholder):
            reach(f"insert: a {found.state} placeholder becomes a resident")
            self.placeholders.remove(found)
            self.enter(Resident(key, record, weight, found.state, 1))
            self.shrink()
        else:
            state = HOT if self.weight_of(HOT) + weight <= self.target else COLD
            reach(f"insert: enters {state}")
            self.shrink(weight)
            self.enter(Resident(key, record, weight, state, 0))

    def insert(self, key, record):
        self.offer(key, record, False, False)
        return "ok"

    def replace(self, key, record):
        self.offer(key, record, True, False)
        return "ok"

    def replace_soft(self, key, record):
        self.offer(key, record, True, True)
        return "ok"

    def read(self, resident):
        if resident.reads == 2:
            reach("a read beyond two")
        resident.reads = min(resident.reads + 1, 2)

    def get(self, key):
        found = self.resident(key)
        if found is None:
            return "none"
        reach(f"get: {found.state}")
        self.read(found)
        return f"found {found.key} {found.record}"

    def peek(self, key):
        found = self.resident(key)
        return "none" if found is None else f"found {found.record}"

    def remove(self, key):
        found = self.find(key)
        if isinstance(found, Resident):
            reach(f"remove: {found.state} resident" + ("" if found.weight else " of weight 0"))
            self.delete(found)
            return f"removed {found.key} {found.record}"
        if isinstance(found, Placeholder):
            reach("remove: a placeholder dropped")
            self.placeholders.remove(found)
        elif isinstance(found, Ghost):
            reach("remove: a ghost dropped")
            self.ghosts.remove(found)
        return "none"

    def ask(self, key):
        found = self.find(key)
        if isinstance(found, Resident):
            reach("ask: found")
            self.read(found)
            return f"found {found.record}"
        if isinstance(found, Placeholder):
            reach("ask: pending")
            return "pending"
        if found is None and self.full():
            reach("ask refused 4")
            refuse(4)
        if self.next_ticket > 2**64 - 1:
            refuse(7)
        state = COLD
        if isinstance(found, Ghost):
            state = HOT
            self.ghosts.remove(found)
        reach(f"ask: a {state} placeholder made")
        number = self.next_ticket
        self.next_ticket += 1
        self.open_tickets.add(number)
        self.placeholders.append(Placeholder(key, state, number))
        return f"ticket {number}"

    def standing(self, number):
        return next((p for p in self.placeholders if p.number == number), None)

    def fill(self, number, record):
        placeholder = self.standing(number)
        if placeholder is None:
            reach("fill refused 8, placeholder gone" if number in self.open_tickets else "fill refused 8, not open")
            self.open_tickets.discard(number)
            refuse(8, record)
        self.open_tickets.discard(number)
        key = placeholder.key
        record, weight, above = self.admit(key, record, "fill")
        self.placeholders.remove(placeholder)
        if above:
            self.hook(COLD, key, record)
            return "ok"
        state = placeholder.state
        if self.weight_of(HOT) + weight <= self.target:
            reach(f"fill: a {state} placeholder enters hot, there is room")
            state = HOT
        else:
            reach(f"fill: a {state} placeholder keeps its state")
        self.enter(Resident(key, record, weight, state, 0))
        if weight:
            self.shrink()
        elif self.total() > self.capacity:
            reach("fill: weight 0 above the capacity, no shrink")
        return "ok"

    def giveup(self, number):
        placeholder = self.standing(number)
        if placeholder is None:
            reach("give-up: nothing stands")
        else:
            reach("give-up: the placeholder dropped")
            self.placeholders.remove(placeholder)
        self.open_tickets.discard(number)
        return "ok"

    def open_edit(self, key):
        found = self.resident(key)
        self.edit = (found,)
        if found is None:
            reach("edit: open on nothing")
            return "open none"
        reach("edit: open")
        self.read(found)
        return f"open {found.record}"

    def in_edit(self, call, arguments):
        found = self.edit[0]
        if call == "read":
            return "none" if found is None else f"found {found.record}"
        if call == "write":
            if found is None:
                reach("edit write refused 9")
                refuse(9, arguments[0])
            found.record = arguments[0]
            return "ok"
        if call == "close":
            if found is not None:
                self.take_weight(found, self.weigh(found.key, found.record), "edit")
                if self.total() > self.capacity:
                    reach("edit: closed above the capacity")
            self.edit = None
            return "ok"
        return "error"

    def set_capacity(self, capacity):
        if capacity > MOST_CAPACITY:
            reach("set_capacity refused 1")
            refuse(1)
        if self.capacity == 0:
            reach("set_capacity: from 0")
            target = dropped(product(capacity, (0.97).as_integer_ratio()))
            bound = self.bound
        else:
            target = dropped(product(capacity, nearest(self.target, self.capacity)))
            bound = dropped(product(self.bound, nearest(capacity, self.capacity)))
            if bound > MOST_CAPACITY:
                reach("set_capacity refused 10")
                refuse(10)
            reach("set_capacity: from more than 0")
        self.capacity, self.target, self.bound = capacity, limited(target, capacity), bound
        if self.total() > self.capacity:
            reach("set_capacity: shrinks")
        self.shrink()
        while len(self.ghosts) > self.bound:
            reach("set_capacity: the oldest ghost goes")
            self.ghosts.pop(0)
        return "ok"

    def counts(self):
        hot = sum(r.state == HOT for r in self.residents)
        cold = len(self.residents) - hot
        return (
            f"counts {hot} {cold} {len(self.ghosts)} {self.weight_of(HOT)} {self.weight_of(COLD)}"
            f" {self.capacity} {self.target} {self.bound} {self.next_ticket}"
        )

    def show_rings(self):
        def shown(r):
            return f" {r.key}={r.record}@{r.weight}r{r.reads}"

        off = sorted((r for r in self.residents if r.weight == 0), key=lambda r: r.key)
        return "".join(
            ["rings hot"]
            + [shown(r) for r in self.rings[HOT]]
            + [" | cold"]
            + [shown(r) for r in self.rings[COLD]]
            + [" | ghosts"]
            + [f" {g.hash}" for g in self.ghosts]
            + [" | off"]
            + [shown(r) + r.state[0] for r in off]
            + [" | placeholders"]
            + [f" {p.key}={p.state[0]}{p.number}" for p in sorted(self.placeholders, key=lambda p: p.key)]
        )


# Reading the lines.

FLOAT = re.compile(r"[+-]?(inf|infinity|nan|([0-9]+\.?[0-9]*|\.[0-9]+)(e[+-]?[0-9]+)?)", re.I)


class Unreadable(Exception):
    pass


def number(text, most):
    if not (text.isascii() and text.isdigit()) or int(text) > most:
        raise Unreadable
    return int(text)


def u32(text):
    return number(text, 2**32 - 1)


def u64(text):
    return number(text, 2**64 - 1)


def f64(text):
    if not FLOAT.fullmatch(text):
        raise Unreadable
    return float(text)


def record(id, weight, pinned, trim):
    if pinned not in ("0", "1"):
        raise Unreadable
    after = None
    if trim != "-":
        pinned_then = trim.endswith("p")
        after = (u32(trim[:-1] if pinned_then else trim), pinned_then)
    return Record(u32(id), u32(weight), pinned == "1", after)


RECORD = "record"
SHAPES = {
    "new": (u32, u64, u64, f64, f64),
    "insert": (u32, RECORD),
    "get": (u32,),
    "peek": (u32,),
    "remove": (u32,),
    "counts": (),
    "replace": (u32, RECORD),
    "replace_soft": (u32, RECORD),
    "ask": (u32,),
    "fill": (u64, RECORD),
    "giveup": (u64,),
    "edit": (u32,),
    "read": (),
    "write": (RECORD,),
    "close": (),
    "set_capacity": (u64,),
    "rings": (),
}


def arguments_of(call, tokens):
    shape = SHAPES.get(call)
    if shape is None or len(tokens) != sum(4 if s is RECORD else 1 for s in shape):
        raise Unreadable
    read, at = [], 0
    for part in shape:
        if part is RECORD:
            read.append(record(*tokens[at : at + 4]))
            at += 4
        else:
            read.append(part(tokens[at]))
            at += 1
    return read


def multiplied(key):
    return key * 0x9E3779B97F4A7C15 % 2**64


class Session:
    def __init__(self):
        self.modes = {"weigher": "data", "lifecycle": "data"}
        self.hash = multiplied
        self.cache = None

    def mode(self, tokens):
        """Takes a line that only sets something; false where it is another."""
        if tokens == ["hash", "mul"]:
            self.hash = multiplied
        elif tokens[:2] == ["hash", "mod"] and len(tokens) == 3:
            n = u32(tokens[2])
            if n == 0:
                raise Unreadable
            self.hash = lambda key: key % n
        elif tokens in (["weigher", "data"], ["weigher", "keyed"]):
            self.modes["weigher"] = tokens[1]
        elif tokens in (["lifecycle", "data"], ["lifecycle", "plain"]):
            self.modes["lifecycle"] = tokens[1]
        elif tokens[:2] == ["lifecycle", "hold"] and len(tokens) == 3:
            self.modes["lifecycle"] = u32(tokens[2])
        else:
            return False
        return True

    def call(self, call, arguments):
        cache = self.cache
        if call == "new":
            if cache is not None and cache.edit is not None:
                return "error"
            self.cache = None
            self.cache = Cache(self.modes, self.hash, *arguments)
            return "ok"
        if cache is None:
            reach("nocache")
            return "nocache"
        if cache.edit is not None:
            return cache.in_edit(call, arguments)
        if call in ("read", "write", "close"):
            return "error"
        name = {"edit": "open_edit", "rings": "show_rings"}.get(call, call)
        if call in ("peek", "counts"):
            reach(call)
        return getattr(cache, name)(*arguments)

    def line(self, line):
        """The answer to a line, none where it has none."""
        if line.startswith("#"):
            return None
        tokens = [t for t in re.split("[ \t]", line) if t]
        if not tokens:
            return None
        try:
            if self.mode(tokens):
                return None
            arguments = arguments_of(tokens[0], tokens[1:])
        except Unreadable:
            reach("unreadable")
            return "error"
        if self.cache is not None:
            self.cache.events.clear()
        try:
            answer = self.call(tokens[0], arguments)
        except Refusal as refusal:
            answer = str(refusal)
        events = self.cache.events if self.cache is not None else []
        return answer + "".join(events)


def main():
    session = Session()
    calls = 0
    write = sys.stdout.write
    for line in sys.stdin:
        answer = session.line(line.rstrip("\n"))
        if answer is not None:
            calls += 1
            write(answer + "\n")
    sys.stdout.flush()
    if "--table" in sys.argv[1:]:
        print(f"{calls:>10}  calls", file=sys.stderr)
        for rule, times in sorted(reached.items()):
            print(f"{times:>10}  {rule}", file=sys.stderr)


if __name__ == "__main__":
    main()
