#!/usr/bin/env python3
"""Puts wrong rules into the model one by one, and says which of the fixed lists shows each."""
import os
import subprocess
import sys
import tempfile

HERE = os.path.dirname(os.path.abspath(__file__))
# What is wrong, the text of model.py, the text in its place.
WRONG = [
("reads grow on get beyond 2","resident.reads = min(resident.reads + 1, 2)","resident.reads = min(resident.reads + 1, 3)"),
("get adds nothing to hot","        self.read(found)\n        return f\"found {found.key} {found.record}\"","        return f\"found {found.key} {found.record}\""),
("turn out = delete","    ring[:] = ring[at + 1 :] + ring[:at]","    ring[:] = ring[:at] + ring[at + 1 :]"),
("delete = turn out","            self.rings[resident.state].remove(resident)\n","            turn_out(self.rings[resident.state], resident)\n"),
("hot hand wholly pinned loses no read","                    r.reads -= 1\n            return False","                    pass\n            return False"),
("pinned loses no read in hot lap","            if r.reads:\n                reach(\"hot hand: a pinned one loses a read\"","            if r.reads and not pinned:\n                reach(\"hot hand: a pinned one loses a read\""),
("cold hand stops at pinned head","                reach(\"cold hand: a pinned one passed\")\n                continue","                break"),
("pinned cold not promoted","            if r.reads:\n                reach(\"cold hand: promoted","            if r.reads and not self.pinned(r.key, r.record):\n                reach(\"cold hand: promoted"),
("promotion clears reads","                r.reads -= 1\n                turn_out(ring, r)","                r.reads = 0\n                turn_out(ring, r)"),
("promotion keeps reads","                r.reads -= 1\n                turn_out(ring, r)","                turn_out(ring, r)"),
("promotion does not step hot","                while self.weight_of(HOT) > self.target:","                while False:"),
("promotion steps hot once","                    if not self.hot_hand():\n                        break","                    self.hot_hand()\n                    break"),
("promotion steps at >=","while self.weight_of(HOT) > self.target:","while self.weight_of(HOT) >= self.target and self.rings[HOT]:"),
("hot eviction leaves ghost","            self.residents.remove(r)\n            self.hook(HOT, r.key, r.record)","            self.residents.remove(r)\n            self.ghosts.append(Ghost(self.hash(r.key)))\n            self.hook(HOT, r.key, r.record)"),
("no ghost bound","if len(self.ghosts) > self.bound:","if False:"),
("ghost bound >=","if len(self.ghosts) > self.bound:","if len(self.ghosts) >= self.bound:"),
("newest ghost dropped","self.ghosts.pop(0)\n            self.hook","self.ghosts.pop()\n            self.hook"),
("a ghost revived as cold","self.ghosts.remove(found)\n            self.enter(Resident(key, record, weight, HOT, 0))","self.ghosts.remove(found)\n            self.enter(Resident(key, record, weight, COLD, 0))"),
("revived with reads 1","self.enter(Resident(key, record, weight, HOT, 0))","self.enter(Resident(key, record, weight, HOT, 1))"),
("placeholder insert reads 0","self.enter(Resident(key, record, weight, found.state, 1))","self.enter(Resident(key, record, weight, found.state, 0))"),
("placeholder insert hot","self.enter(Resident(key, record, weight, found.state, 1))","self.enter(Resident(key, record, weight, HOT, 1))"),
("enter judged strict","state = HOT if self.weight_of(HOT) + weight <= self.target else COLD","state = HOT if self.weight_of(HOT) + weight < self.target else COLD"),
("enter judged after","            self.shrink(weight)\n            self.enter(Resident(key, record, weight, state, 0))","            self.shrink(weight)\n            state = HOT if self.weight_of(HOT) + weight <= self.target else COLD\n            self.enter(Resident(key, record, weight, state, 0))"),
("shrink after entering","            self.shrink(weight)\n            self.enter(Resident(key, record, weight, state, 0))","            self.enter(Resident(key, record, weight, state, 0))\n            self.shrink()"),
("insert shrinks without its weight","self.shrink(weight)","self.shrink(0)"),
("found does not shrink","            self.hook(found.state, key, old)\n            self.shrink()","            self.hook(found.state, key, old)"),
("found shrinks before hook","            self.hook(found.state, key, old)\n            self.shrink()","            self.shrink()\n            self.hook(found.state, key, old)"),
("ghost no shrink","            self.enter(Resident(key, record, weight, HOT, 0))\n            self.shrink()","            self.enter(Resident(key, record, weight, HOT, 0))"),
("placeholder no shrink","found.state, 1))\n            self.shrink()","found.state, 1))"),
("shrink once","            if not self.cold_hand():\n                reach(\"shrink: ends above the capacity\")\n                break","            self.cold_hand()\n            break"),
("admission by capacity","        if weight <= self.target:\n            return record, weight, False","        if weight <= self.capacity:\n            return record, weight, False"),
("admission strict","        if weight <= self.target:\n            return","        if weight < self.target:\n            return"),
("pinned above target refused","        if self.pinned(key, record):\n            reach(f\"{call}: pinned above","        if False:\n            reach(f\"{call}: pinned above"),
("weight not retaken at admission","        record = self.trimmed(key, record)\n        weight = self.weigh(key, record)\n        above","        record = self.trimmed(key, record)\n        above"),
("overweight leaves resident","                self.delete(found)\n                self.hook(found.state, found.key, found.record)","                pass"),
("overweight resident no hook","                self.delete(found)\n                self.hook(found.state, found.key, found.record)","                self.delete(found)"),
("overweight resident cold hook always","self.hook(found.state, found.key, found.record)","self.hook(COLD, found.key, found.record)"),
("overweight drops ghost","            elif found is not None:\n                reach(f\"{call}: above the target, a {type(found).__name__.lower()} of its key stays\")","            elif found is not None:\n                (self.ghosts if isinstance(found, Ghost) else self.placeholders).remove(found)"),
("resident insert no read","            if not soft:\n","            if replace and not soft:\n"),
("soft counts a read","            if not soft:\n","            if True:\n"),
("old to cold hook","            self.hook(found.state, key, old)","            self.hook(COLD, key, old)"),
("slot refusal after admission","        if not replace and found is None and self.full():","        if not replace and found is None and self.full() and self.weigh(key, record) <= self.target:"),
("full off by one",">= self.slots",">  self.slots"),
("ghosts need no slot","len(self.residents) + len(self.placeholders) + len(self.ghosts)","len(self.residents) + len(self.placeholders)"),
("a cold one trimmed to 0 leaves","                reach(\"cold hand: trimmed to 0, stays\")\n                return True","                self.residents.remove(r)\n                return True"),
("cold trim not applied","            turn_out(ring, r)\n            r.record = self.trimmed(r.key, r.record)\n            r.weight = self.weigh(r.key, r.record)\n            if r.weight == 0:\n                reach(\"cold","            turn_out(ring, r)\n            self.trimmed(r.key, r.record)\n            r.weight = self.weigh(r.key, r.record)\n            if r.weight == 0:\n                reach(\"cold"),
("hot passes only one lap","            at = (at + 1) % len(ring)","            at = (at + 1) % len(ring)\n            if steps >= 2 * len(ring): return False"),
("remove leaves ghost","            self.ghosts.remove(found)\n        return \"none\"","            pass\n        return \"none\""),
("peek adds a read","    def peek(self, key):\n        found = self.resident(key)\n","    def peek(self, key):\n        found = self.resident(key)\n        if found is not None: self.read(found)\n"),
("target not raised","    return min(max(target, min(1, capacity)), capacity)","    return min(target, capacity)"),
("refusal order settings","        if items > MOST_ITEMS:\n            reach(\"settings refused 2\")\n            refuse(2)\n        if not (0 <= hot","        if not (0 <= hot <= 1 and 0 <= ghost <= 1):\n            refuse(3)\n        if items > MOST_ITEMS:\n            reach(\"settings refused 2\")\n            refuse(2)\n        if not (0 <= hot"),
("weigher keyed uncapped","        return min(record.weight + key % 3, 2**32 - 1)","        return record.weight + key % 3"),
("hold pins only","        return record.pinned or (life != \"data\" and life == key)","        return record.pinned if life == \"data\" else life == key"),
("hash mod ignored","            self.hash = lambda key: key % n","            self.hash = multiplied"),
("a ghost before a resident of the key","        for entry in self.residents + self.placeholders:\n            if entry.key == key:\n                return entry\n        hash = self.hash(key)\n","        hash = self.hash(key)\n        for g in self.ghosts:\n            if g.hash == hash:\n                return g\n        for entry in self.residents + self.placeholders:\n            if entry.key == key:\n                return entry\n"),
("wholly pinned cold answers no","        reach(\"cold hand: wholly pinned, the hot hand steps\")\n        return self.hot_hand()","        return False"),
("an empty cold ring answers no","        if not ring:\n            reach(\"cold hand: empty ring, the hot hand steps\")\n            return self.hot_hand()","        if not ring:\n            return False"),
("fill reads 1","self.enter(Resident(key, record, weight, state, 0))\n        if weight:","self.enter(Resident(key, record, weight, state, 1))\n        if weight:"),
("fill always shrinks","        if weight:\n            self.shrink()\n        elif","        if True:\n            self.shrink()\n        elif"),
("fill keeps state","            state = HOT\n        else:\n            reach(f\"fill: a","            pass\n        else:\n            reach(f\"fill: a"),
("fill judged strict","        if self.weight_of(HOT) + weight <= self.target:\n            reach(f\"fill","        if self.weight_of(HOT) + weight < self.target:\n            reach(f\"fill"),
("fill hot placeholder demoted","        else:\n            reach(f\"fill: a {state} placeholder keeps its state\")","        else:\n            state = COLD"),
("fill above keeps placeholder","        self.placeholders.remove(placeholder)\n        if above:\n","        if not above: self.placeholders.remove(placeholder)\n        if above:\n"),
("ask ghost cold","            state = HOT\n            self.ghosts.remove(found)","            self.ghosts.remove(found)"),
("ask no read","            reach(\"ask: found\")\n            self.read(found)","            reach(\"ask: found\")"),
("remove leaves placeholder","            reach(\"remove: a placeholder dropped\")\n            self.placeholders.remove(found)","            pass"),
("giveup leaves","            reach(\"give-up: the placeholder dropped\")\n            self.placeholders.remove(placeholder)","            pass"),
("edit no read","        reach(\"edit: open\")\n        self.read(found)","        reach(\"edit: open\")"),
("edit close shrinks","                if self.total() > self.capacity:\n                    reach(\"edit: closed above the capacity\")","                self.shrink()"),
("closing keeps the weight under another weigher","                self.take_weight(found, self.weigh(found.key, found.record), \"edit\")","                if self.weigh(found.key, found.record) != found.weight and self.modes['weigher']=='data': self.take_weight(found, self.weigh(found.key, found.record), \"edit\")"),
("replace 6 before 5","        record, weight, above = self.admit(key, record, call)\n        if above:","        if replace and not isinstance(found, Resident): refuse(6, record)\n        record, weight, above = self.admit(key, record, call)\n        if above:"),
("set_capacity from 0 bound 0","            bound = self.bound\n        else:","            bound = 0\n        else:"),
("set_capacity old bound while shrinking","        self.capacity, self.target, self.bound = capacity, limited(target, capacity), bound\n        if self.total() > self.capacity:\n            reach(\"set_capacity: shrinks\")\n        self.shrink()\n","        self.capacity, self.target = capacity, limited(target, capacity)\n        self.shrink()\n        self.bound = bound\n"),
("set_capacity keeps ghosts","        while len(self.ghosts) > self.bound:\n            reach(\"set_capacity","        while False:\n            reach(\"set_capacity"),
("set_capacity not shrinking","            reach(\"set_capacity: shrinks\")\n        self.shrink()","            reach(\"set_capacity: shrinks\")"),
("set_capacity target by 0.97","product(capacity, nearest(self.target, self.capacity))","product(capacity, (0.97).as_integer_ratio())"),
("set_capacity bound exact ratio","product(self.bound, nearest(capacity, self.capacity))","nearest(self.bound * capacity, self.capacity)"),
("set_capacity target exact ratio","product(capacity, nearest(self.target, self.capacity))","nearest(capacity * self.target, self.capacity)"),
("ticket next reused","        number = self.next_ticket\n        self.next_ticket += 1","        number = max(self.open_tickets, default=0) + 1\n        self.next_ticket = number + 1"),
]


def shows(model, name):
    """Whether the answers of this model to a fixed list differ from the list's."""
    path = os.path.join(HERE, "fixtures", name)
    with open(path + ".in") as calls, open(path + ".out") as answers:
        try:
            done = subprocess.run(
                [sys.executable, model], stdin=calls, capture_output=True, text=True, timeout=60
            )
        except subprocess.TimeoutExpired:
            return True
        return done.returncode != 0 or done.stdout != answers.read()


def main():
    with open(os.path.join(HERE, "model.py")) as file:
        source = file.read()
    unseen = 0
    with tempfile.TemporaryDirectory() as folder:
        model = os.path.join(folder, "model.py")
        for name, old, new in WRONG:
            assert source.count(old) == 1, name
            with open(model, "w") as file:
                file.write(source.replace(old, new))
            by = [fixed for fixed in ("stage1", "all") if shows(model, fixed)]
            unseen += not by
            print(f"{name}: {' and '.join(by) or 'NOT SHOWN'}")
    print(f"{len(WRONG)} wrong rules, {unseen} not shown")
    sys.exit(1 if unseen else 0)


main()
