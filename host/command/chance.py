# Random calls and random lines for the tests, all from one seeded source.

import model

EDGES = [0, 1, 2, 15, 16, 31, 32, 255, 256, 511, 512, 65535, 65536, 2 ** 32, 2 ** 56 - 1, 2 ** 56, 2 ** 63, 2 ** 64 - 1]
SCRAPS = [b"0", b"9", b"=", b"==", b" ", b"\t", b"\r", b"#", b"x", b"-1", b"\x00", b"\xff", b"\xc3\xa9", b"+",
          b"18446744073709551615", b"18446744073709551616", b"99999999999999999999", b"000", b"commit", b"now 0", b"known",
          b"hear 00", b"aF", b"g"]


def value(chance):
    return chance.choice([chance.randrange(10), chance.getrandbits(64), 2 ** 64 - 1, chance.getrandbits(32)])


def object_number(chance):
    """Mostly of few pages, so that entries meet; at times any."""
    return chance.randrange(80) if chance.random() < 0.8 else chance.randrange(model.OBJECTS)


def some_commit(chance, store):
    floor = max(store.last, store.horizon)
    stamp = min(floor + chance.choice([1, 1, 2, 5, 300]), 2 ** 64 - 1)
    count = chance.choice([1, 1, 1, 2, 2, 3, 5, 16])
    things = []
    while len(things) < count:
        thing = object_number(chance)
        if thing not in things:
            things.append(thing)
    return "commit", (stamp, [(thing, value(chance)) for thing in things])


def some_gossip(chance, store, most_snapshots=62):
    """A message that the store takes: it tells again what is known beyond its first bound."""
    prev = store.horizon
    if store.snapshots and chance.random() < 0.3:
        prev = chance.choice(store.snapshots[-3:]) - chance.randrange(2)
    floor = max(store.last, store.horizon)
    curr = max(store.horizon, floor - chance.randrange(20)) + chance.choice([1, 3, 10])
    curr = min(curr, 2 ** 64 - 1)
    stamps = [stamp for stamp in store.snapshots if stamp > prev]
    if curr > store.horizon and len(store.snapshots) < most_snapshots and chance.random() < 0.3:
        stamps.append(chance.randint(store.horizon + 1, curr))
    return "gossip", (prev, curr, stamps)


def some_flush(chance, store):
    pages = sorted({thing // model.SLOTS for thing in store.pending})
    return "flush", (chance.choice(pages) if pages else chance.randrange(model.PAGES),)


def some_change(chance, store, most_snapshots=62):
    crowded = len(store.pending) > 100
    kind = chance.choices(["commit", "gossip", "flush"], [6, 2, 4 if crowded else 2])[0]
    if kind == "commit":
        return some_commit(chance, store)
    if kind == "gossip":
        return some_gossip(chance, store, most_snapshots)
    return some_flush(chance, store)


def heard(call):
    """A message as its bytes are heard."""
    return "hear", (model.record(*call),)


def some_heard(chance, store):
    """A message's bytes: one that the store takes, one of any numbers, a damaged one."""
    kind = chance.choice(["fits", "fits", "edge", "damaged"])
    call = some_gossip(chance, store)
    if kind == "edge":
        one = lambda: edge(chance, store)
        call = "gossip", (one(), one(), [one() for _ in range(chance.choice([0, 0, 1, 2, 16, 17]))])
    _, (data,) = heard(call)
    return "hear", (damaged(chance, data) if kind == "damaged" else data,)


def damaged(chance, data):
    """The bytes of a message or a request, changed so that no record of the kind is left: cut short, lengthened, of another kind."""
    kind = chance.choice(["cut", "longer", "kind", "length", "twice"])
    if kind == "cut":
        return data[:chance.randrange(1, len(data))]
    if kind == "longer":
        return data + chance.randbytes(chance.choice([1, 1, 2, 8, 100]))
    if kind == "kind":
        return data[:2] + bytes([(data[2] + chance.randrange(1, 256)) % 256]) + data[3:]
    if kind == "length":
        return (int.from_bytes(data[:2], "big") ^ 1 << chance.randrange(16)).to_bytes(2, "big") + data[2:]
    return data + data


def some_read(chance, store):
    kind = chance.choice(list(model.READS))
    time = chance.choice((store.snapshots or [0]) + [store.horizon, store.horizon + 1])
    page = chance.randrange(model.PAGES)
    return kind, {"read": (time, page), "clock": (time // 256, page), "now": (page,)}.get(kind, ())


def edge(chance, store):
    """A number at which a rule turns."""
    near = [store.last, store.horizon] + store.snapshots[-3:]
    number = chance.choice(EDGES + 3 * near) + chance.choice([-1, 0, 0, 0, 1])
    return min(max(number, 0), 2 ** 64 - 1)


def edgy_call(chance, store):
    kind = chance.choice(["commit", "gossip", "flush", "read", "clock", "now", "ask", "hear"])
    one = lambda: edge(chance, store)
    if kind == "hear":
        return some_heard(chance, store)
    if kind == "commit":
        thing = lambda: chance.choice([one(), object_number(chance)])
        return kind, (one(), [(thing(), one()) for _ in range(chance.choice([0, 1, 1, 2, 15, 16, 17, 40]))])
    if kind == "gossip":
        stamps = [one() for _ in range(chance.choice([0, 0, 1, 2, 3, 17]))]
        return kind, (one(), one(), sorted(stamps) if chance.random() < 0.7 else stamps)
    return kind, tuple(one() for _ in range({"flush": 1, "read": 2, "clock": 2, "now": 1, "ask": 1}[kind]))


def bent(chance, line):
    """A line with a few of its bytes changed, taken out or added."""
    for _ in range(chance.choice([1, 1, 2, 4])):
        at = chance.randrange(len(line) + 1)
        cut = chance.choice([0, 0, 1, 3])
        line = line[:at] + chance.choice(SCRAPS + [b""]) + line[at + cut:]
    return line.replace(b"\n", b" ")


def rubbish(chance, length):
    """Random bytes with no newline among them."""
    return bytes(chance.choices([byte for byte in range(256) if byte != 10], k=length))


def some_line(chance, store):
    """Any line: a call that fits, one at the edges, a bent one, or rubbish."""
    kind = chance.choices(["change", "read", "edge", "bent", "salad", "rubbish"], [8, 3, 4, 4, 1, 1])[0]
    if kind == "salad":
        return b"".join(chance.choice(SCRAPS + [b" ", b" "]) for _ in range(chance.randrange(8)))
    if kind == "rubbish":
        return rubbish(chance, chance.randrange(40))
    if kind == "edge":
        return model.line_of(*edgy_call(chance, store)).encode()
    call = some_read(chance, store) if kind == "read" else some_change(chance, store)
    line = model.line_of(*call).encode()
    return bent(chance, line) if kind == "bent" else line


def plan(chance, command, count):
    """Calls one after the other with what each must be answered and the bytes it adds; moves the command on.
    Few snapshots, one more with each part of the journal: the archive then has room to its end."""
    steps = []
    for _ in range(count):
        most = 1 + len(command.journal) // 15000
        call = some_change(chance, command.store, min(most, 4)) if chance.random() < 0.93 else some_read(chance, command.store)
        call = heard(call) if call[0] == "gossip" and chance.random() < 0.5 else call
        used = len(command.journal)
        answer = command.call(*call)
        steps.append((call, answer, command.journal[used:]))
    return steps


def lines_of(steps):
    return "".join(model.line_of(*call) + "\n" for call, _, _ in steps).encode()


# ---- a coordinator's calls ----

def near_stamp(chance, coordinator):
    """A stamp at which a coordinator's rule turns."""
    near = [0, coordinator.sent, coordinator.top()] + coordinator.granted[-17:]
    return max(chance.choice(near) + chance.choice([-1, 0, 0, 1]), 0)


def some_order(chance, coordinator):
    """A coordinator's call, mostly one that it does."""
    kind = chance.choices(["grant", "message", "serve", "granted"], [6, 3, 3, 1])[0]
    if kind == "granted":
        return kind, ()
    if kind == "grant":
        return kind, divmod(coordinator.top() + chance.choice([0, 1, 1, 2, 7, 300]), 256)
    prev, clock = near_stamp(chance, coordinator), near_stamp(chance, coordinator) + chance.choice([0, 0, 1, 9])
    prev, clock = (min(prev, clock), max(prev, clock)) if chance.random() < 0.9 else (prev, clock)
    prev, clock = min(prev, 2 ** 64 - 1), min(clock, 2 ** 64 - 1)
    return (kind, (prev, clock)) if kind == "message" else (kind, (model.request(prev, clock),))


def edgy_order(chance, coordinator):
    one = lambda: min(max(chance.choice(EDGES + [coordinator.top(), coordinator.sent]) + chance.choice([-1, 0, 0, 1]), 0), 2 ** 64 - 1)
    kind = chance.choice(["grant", "message", "serve", "serve"])
    if kind == "serve":
        data = model.request(one(), one())
        return kind, (chance.choice([data, damaged(chance, data), chance.randbytes(chance.choice([1, 18, 19, 20, 512]))]),)
    return kind, (one(), one())


def some_order_line(chance, coordinator):
    """Any line: a call that fits, a bent one, rubbish, and seldom one at the edges, since after the largest nothing is granted."""
    kind = chance.choices(["fit", "edge", "bent", "salad", "rubbish"], [10, 0.2, 4, 1, 1])[0]
    if kind == "salad":
        return b"".join(chance.choice(SCRAPS + [b" ", b" ", b"grant 1 1", b"serve"]) for _ in range(chance.randrange(8)))
    if kind == "rubbish":
        return rubbish(chance, chance.randrange(40))
    line = model.line_of(*(edgy_order if kind == "edge" else some_order)(chance, coordinator)).encode()
    return bent(chance, line) if kind == "bent" else line
