#!/usr/bin/env python3
"""Prints what the control room must print for a script: the rules of docs/RULES.md, docs/REFUSALS.md, docs/CONTROL_ROOM.md and
docs/BOOK.md (an account's bytes), written anew in Python, apart from the code and its definitions. The expected output of the
scripts in crates/script_tests/data that each show one rule or a few was computed by it.

usage: python3 tools/expected_output.py [SCRIPT]     the script is read from standard input where none is named
"""

import sys
from collections import namedtuple

OPEN = 1 << 48
KEYS, WORKERS, PLACES, LEGS = 64, 8, 4, 16
WRITE_KEYS, READINGS, CACHE, WAITING = 8, 32, 8, 32

Reading = namedtuple("Reading", "value t p")


class Refused(Exception):
    def __init__(self, number, layer, place=255, leg=255, key=255):
        self.args5 = (number, layer, place, leg, key)


class Store:
    def __init__(self, depth, capacity):
        self.depth, self.capacity, self.last = depth, capacity, 0
        self.kept = [[(0, 0)] for _ in range(KEYS)]

    def version(self, key, time):
        if key >= KEYS or time > OPEN:
            raise Refused(1, "store", key=key)
        versions = self.kept[key]
        at = [i for i, (t, _) in enumerate(versions) if t <= time]
        if not at:
            raise Refused(15, "store", key=key)
        i = at[-1]
        promise = versions[i + 1][0] - 1 if i + 1 < len(versions) else self.last
        return Reading(versions[i][1], versions[i][0], promise)

    def commit(self, clock, writes):
        keys = [k for k, _ in writes]
        if not 1 <= len(writes) <= WRITE_KEYS or any(k >= KEYS for k in keys) or any(a >= b for a, b in zip(keys, keys[1:])):
            raise Refused(11, "store")
        if clock >= OPEN:
            raise Refused(12, "store")
        if self.last == OPEN - 1:
            raise Refused(13, "store")
        time = max(clock, self.last + 1)
        after = [list(v) for v in self.kept]
        for k, value in writes:
            after[k] = (after[k] + [(time, value)])[-self.depth:]
        if sum(map(len, after)) > self.capacity:
            raise Refused(14, "store")
        self.kept, self.last = after, time
        return time

    def prune(self, horizon):
        bound = min(horizon, self.last)
        for k, versions in enumerate(self.kept):
            at = [i for i, (t, _) in enumerate(versions) if t <= bound]
            if at:
                self.kept[k] = versions[at[-1]:]


class Leg:
    def __init__(self, worker, low, high, writes):
        self.worker, self.low, self.high, self.writes = worker, low, high, dict(writes)
        self.own = {}


class Chain:
    def __init__(self, worker):
        self.legs = [Leg(worker, 0, OPEN, {})]     # None: ended
        self.readings = []

    def open(self, leg):
        return leg < len(self.legs) and self.legs[leg] is not None


class Engine:
    def __init__(self, store):
        self.store = store
        self.chains = [None] * PLACES
        self.caches = [[] for _ in range(WORKERS)]   # (key, reading), oldest use first
        self.notices = []
        self.lost = 0

    # checks shared by the calls that name a leg
    def leg(self, place, leg, others=(), workers=(), key=None):
        named = (place, leg, 255 if key is None else key)
        if place >= PLACES or leg >= LEGS or any(l >= LEGS for l in others) or any(w >= WORKERS for w in workers) or (
                key is not None and key >= KEYS):
            raise Refused(1, "chain", *named)
        chain = self.chains[place]
        if chain is None or not chain.open(leg) or any(not chain.open(l) for l in others):
            raise Refused(3, "chain", *named)
        return chain, chain.legs[leg], named

    def begin(self, place, worker):
        if place >= PLACES or worker >= WORKERS:
            raise Refused(1, "chain", place)
        if self.chains[place] is not None:
            raise Refused(2, "chain", place)
        self.chains[place] = Chain(worker)
        return "leg 0"

    def successors(self, chain, ended, legs):
        """Ends the legs of these numbers and opens these."""
        for number in ended:
            chain.legs[number] = None
        first = len(chain.legs)
        chain.legs += legs
        return first

    def hand(self, place, leg, worker):
        chain, l, named = self.leg(place, leg, workers=[worker])
        if len(chain.legs) + 1 > LEGS:
            raise Refused(5, "chain", *named)
        return "leg %d" % self.successors(chain, [leg], [Leg(worker, l.low, l.high, l.writes)])

    def fork(self, place, leg, w1, w2):
        chain, l, named = self.leg(place, leg, workers=[w1, w2])
        if len(chain.legs) + 2 > LEGS:
            raise Refused(5, "chain", *named)
        n = self.successors(chain, [leg], [Leg(w, l.low, l.high, l.writes) for w in (w1, w2)])
        return "legs %d %d" % (n, n + 1)

    def join(self, place, leg, second, worker):
        chain, a, named = self.leg(place, leg, others=[second], workers=[worker])
        b = chain.legs[second]
        if leg == second:
            raise Refused(4, "chain", *named)
        if len(chain.legs) + 1 > LEGS:
            raise Refused(5, "chain", *named)
        low, high = max(a.low, b.low), min(a.high, b.high)
        if low > high:
            raise Refused(6, "chain", *named)
        writes = {**a.writes, **b.writes}
        if len(writes) > WRITE_KEYS:
            raise Refused(7, "chain", *named)
        return "leg %d" % self.successors(chain, [leg, second], [Leg(worker, low, high, writes)])

    def write(self, place, leg, key, value):
        _, l, named = self.leg(place, leg, key=key)
        if key not in l.writes and len(l.writes) == WRITE_KEYS:
            raise Refused(7, "chain", *named)
        l.writes[key] = value
        return "done"

    def read(self, place, leg, key):
        chain, l, named = self.leg(place, leg, key=key)
        if key in l.writes:
            return "value %d" % l.writes[key]
        if key in l.own:
            return "value %d" % l.own[key].value
        if len(chain.readings) == READINGS:
            raise Refused(8, "chain", *named)
        cache = self.caches[l.worker]
        entry = next((r for k, r in cache if k == key), None)
        if entry is not None and entry.p >= l.low and entry.t <= l.high:
            reading = entry
            self.use(cache, key, entry)
        else:
            try:
                reading = self.store.version(key, l.high)
            except Refused as fault:
                raise Refused(fault.args5[0], "store", *named)
            if not (entry is not None and entry.t > l.high):
                self.use(cache, key, reading)
        l.low, l.high = max(l.low, reading.t), min(l.high, reading.p)
        l.own[key] = reading
        chain.readings.append((l.worker, key, reading))
        return "value %d" % reading.value

    @staticmethod
    def use(cache, key, reading):
        if any(k == key for k, _ in cache):
            cache[:] = [e for e in cache if e[0] != key]
        elif len(cache) == CACHE:
            cache.pop(0)
        cache.append((key, reading))

    def commit(self, place, leg, clock, room_readings=READINGS, room_writes=WRITE_KEYS):
        chain, l, named = self.leg(place, leg)
        if any(i != leg and other is not None for i, other in enumerate(chain.legs)):
            raise Refused(9, "chain", *named)
        writes = sorted(l.writes.items())
        if len(chain.readings) > room_readings or len(writes) > room_writes:
            raise Refused(10, "chain", *named)
        time = 0
        if writes:
            try:
                time = self.store.commit(clock, writes)
            except Refused as fault:
                raise Refused(fault.args5[0], "store", *named)
        self.chains[place] = None
        for key, value in writes:
            for worker in range(WORKERS):
                if any(k == key for k, _ in self.caches[worker]):
                    if len(self.notices) < WAITING:
                        self.notices.append((worker, key, Reading(value, time, time)))
                    else:
                        self.lost = min(self.lost + 1, 2**64 - 1)
        return account_text(l.low, l.high, time, chain.readings, writes)

    def abandon(self, place):
        if place >= PLACES:
            raise Refused(1, "chain", place)
        if self.chains[place] is None:
            raise Refused(3, "chain", place)
        self.chains[place] = None
        return "done"

    def deliver(self, position):
        if position >= len(self.notices):
            raise Refused(16, "notices")
        worker, key, new = self.notices[position]
        cache = self.caches[worker]
        for i, (k, old) in enumerate(cache):
            if k == key:
                if old.t < new.t:
                    cache[i] = (k, new)
                elif old.t == new.t and old.p < new.p:
                    cache[i] = (k, old._replace(p=new.p))
        return "done"

    def discard(self, position):
        if position >= len(self.notices):
            raise Refused(16, "notices")
        del self.notices[position]
        return "done"

    def count(self):
        return "waiting %d lost %d" % (len(self.notices), self.lost)

    def prune(self, horizon):
        self.store.prune(horizon)
        return "done"


def account_bytes(low, high, time, readings, writes):
    out = bytes([0xC3, 0x3C, len(readings), len(writes)])
    for n in (low, high, time):
        out += n.to_bytes(8, "big")
    for worker, key, r in readings:
        out += bytes([worker, key]) + r.value.to_bytes(4, "big") + r.t.to_bytes(8, "big") + r.p.to_bytes(8, "big")
    for key, value in writes:
        out += bytes([key]) + value.to_bytes(4, "big")
    x = 0
    for b in out:
        x ^= b
    return out + bytes([x])


def account_text(low, high, time, readings, writes):
    lines = ["account %d %d %d %d %d" % (low, high, time, len(readings), len(writes))]
    lines += ["  reading %d %d %d %d %d" % (w, k, r.value, r.t, r.p) for w, k, r in readings]
    lines += ["  write %d %d" % w for w in writes]
    lines.append("  book " + account_bytes(low, high, time, readings, writes).hex())
    return "\n".join(lines)


B, W, Q = (1 << 8) - 1, (1 << 32) - 1, (1 << 64) - 1
FORMS = {"begin": [[B] * 2], "hand": [[B] * 3], "fork": [[B] * 4], "join": [[B] * 4], "write": [[B] * 3 + [W]], "read": [[B] * 3],
         "commit": [[B, B, Q], [B, B, Q, 32, 8]], "abandon": [[B]], "deliver": [[Q]], "discard": [[Q]], "count": [[]], "prune": [[Q]]}


def numbers(words, ranges):
    if len(words) != len(ranges):
        return None
    out = []
    for w, top in zip(words, ranges):
        if not w or any(c not in b"0123456789" for c in w) or int(w) > top:
            return None
        out.append(int(w))
    return out


def play(script):
    lines = script.split(b"\n")
    if lines[-1] == b"":
        lines.pop()
        ended = len(lines)
    else:
        ended = len(lines) - 1
    out, engine, named = [], None, False
    for number, line in enumerate(lines, 1):
        if number <= ended and line.endswith(b"\r"):
            line = line[:-1]
        words = [w for w in line.replace(b"\t", b" ").split(b" ") if w]
        if not words or words[0].startswith(b"#"):
            continue
        bad = "bad %d" % number
        if words[0] == b"store":
            if engine is not None or named:
                out.append(bad)
            elif words[1:] == [b"newest"]:
                named, engine_store = True, Store(1, 64)
                out.append("store newest -> done")
                pending = engine_store
            elif len(words) == 3 and words[1] == b"table" and numbers(words[2:], [1024]) is not None:
                records = int(words[2])
                named = True
                pending = Store(16, records if records >= 64 else 64)
                out.append("store table %d -> %s" % (records, "done" if records >= 64 else "refused 17 store 255 255 255"))
            else:
                out.append(bad)
            continue
        try:
            forms = FORMS.get(words[0].decode("ascii"), [])
        except UnicodeDecodeError:
            forms = []
        args = next((a for a in (numbers(words[1:], f) for f in forms) if a is not None), None)
        if args is None:
            out.append(bad)
            continue
        if engine is None:
            engine = Engine(pending if named else Store(16, 1024))
        name = words[0].decode()
        try:
            answer = getattr(engine, name)(*args)
        except Refused as fault:
            answer = "refused %d %s %d %d %d" % fault.args5
        out.append(" ".join([name] + [str(a) for a in args]) + " -> " + answer)
    return "".join(l + "\n" for l in out)


if __name__ == "__main__":
    data = open(sys.argv[1], "rb").read() if len(sys.argv) > 1 else sys.stdin.buffer.read()
    sys.stdout.write(play(data))
