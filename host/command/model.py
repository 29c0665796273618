# The store of document 01, the coordinator of document 02 and the lines of both commands, written in Python from the documents alone.
# The tests hold the commands' answers, the journal's bytes and those of the coordinator's file against this.

import re
from bisect import bisect_left, bisect_right

PAGES, SLOTS, OBJECTS = 32, 16, 512
MOST_WRITES, MOST_STAMPS = 16, 16
MOST_PENDING, MOST_PAST, MOST_SNAPSHOTS, MOST_COPIES = 128, 256, 64, 128
MOST_GRANTED = 64
JOURNAL_ROOM = 65535
WORD = 2 ** 64
TICKS = 2 ** 56
NODES = 256
LONGEST_LINE = 1048576
MOST_HEX = 1024

NAMES = ["Done", "Nothing", "Damaged", "Shape", "Twice", "Late", "Gap", "Conflict", "Pending full",
         "Past full", "Snapshots full", "Archive full", "No journal room", "Ahead", "No snapshot",
         "Version", "Malformed", "Contradiction"]
(DONE, NOTHING, DAMAGED, SHAPE, TWICE, LATE, GAP, CONFLICT, PENDING_FULL, PAST_FULL, SNAPSHOTS_FULL,
 ARCHIVE_FULL, NO_ROOM, AHEAD, NO_SNAPSHOT, VERSION, MALFORMED, CONTRADICTION) = range(18)


# ---- the store ----

class Store:
    """The tables of 01. Pending: object -> (first, latest, value), in the order of adding."""

    def __init__(self):
        self.values = [0] * OBJECTS
        self.stamps = [0] * OBJECTS
        self.pending = {}
        self.past = []          # (object, from, until, value)
        self.snapshots = []
        self.horizon = 0
        self.last = 0
        self.copies = []        # (page, stamp, values)

    def copy(self):
        other = Store.__new__(Store)
        other.values, other.stamps = self.values[:], self.stamps[:]
        other.pending, other.past = dict(self.pending), self.past[:]
        other.snapshots, other.copies = self.snapshots[:], self.copies[:]
        other.horizon, other.last = self.horizon, self.last
        return other

    def same(self, other):
        return (self.__dict__ == other.__dict__
                and list(self.pending) == list(other.pending))

    def mark(self, page):
        return max((stamp for at, stamp, _ in self.copies if at == page), default=0)

    def live(self, row, mark):
        _, start, until, _ = row
        if start < until and until - 1 > self.horizon:
            return True
        at = bisect_left(self.snapshots, max(start, mark + 1))
        return at < len(self.snapshots) and self.snapshots[at] < until

    def past_of(self, page):
        return [row for row in self.past if row[0] // SLOTS == page]

    def look(self, thing, stamp, rows):
        """Value and writing stamp as of a stamp, where no copy serves; the rows are its page's past values."""
        if thing in self.pending and self.pending[thing][1] <= stamp:
            return self.pending[thing][2], self.pending[thing][1]
        for at, start, until, value in rows:
            if at == thing and start <= stamp < until:
                return value, start
        return self.values[thing], self.stamps[thing]

    def current(self, thing):
        if thing in self.pending:
            return self.pending[thing][2], self.pending[thing][1]
        return self.values[thing], self.stamps[thing]

    def page_as_of(self, page, stamp):
        serving = [row for row in self.copies if row[0] == page and row[1] >= stamp]
        if serving:
            return list(min(serving, key=lambda row: row[1])[2])
        rows = self.past_of(page)
        return [self.look(thing, stamp, rows)[0] for thing in things_of(page)]

    def due(self, page):
        """The snapshots that a flush of the page would archive, ascending."""
        rows, first = self.past_of(page), bisect_right(self.snapshots, self.mark(page))
        return [stamp for at, stamp in enumerate(self.snapshots)
                if at >= first and self.is_written_after(page, stamp, self.snapshots[at + 1:at + 2], rows)]

    def is_written_after(self, page, stamp, following, rows):
        """Some object has, as of the following snapshot or currently, a value written after the stamp."""
        if following:
            return any(self.look(thing, following[0], rows)[1] > stamp for thing in things_of(page))
        return any(self.current(thing)[1] > stamp for thing in things_of(page))


def things_of(page):
    return range(SLOTS * page, SLOTS * page + SLOTS)


# ---- the changes: (code, number) as if the journal had room, and the store after ----

def commit(store, stamp, writes):
    if not 1 <= len(writes) <= MOST_WRITES or any(thing >= OBJECTS for thing, _ in writes):
        return SHAPE, 0
    if len({thing for thing, _ in writes}) < len(writes):
        return TWICE, 0
    if stamp <= store.last or stamp <= store.horizon:
        return LATE, max(store.last, store.horizon)
    new = sum(1 for thing, _ in writes if thing not in store.pending)
    if len(store.pending) + new > MOST_PENDING:
        return PENDING_FULL, 0
    rows = [(thing, store.pending[thing][1], stamp, store.pending[thing][2])
            for thing, _ in writes if thing in store.pending]
    marks = {row[0] // SLOTS: store.mark(row[0] // SLOTS) for row in rows}
    rows = [row for row in rows if store.live(row, marks[row[0] // SLOTS])]
    if len(store.past) + len(rows) > MOST_PAST:
        return PAST_FULL, 0

    def apply():
        store.past += rows
        for thing, value in writes:
            first = store.pending[thing][0] if thing in store.pending else stamp
            store.pending[thing] = (first, stamp, value)
        store.last = stamp
    return DONE, apply


def is_shaped(prev, curr, stamps):
    return (len(stamps) <= MOST_STAMPS and prev <= curr
            and all(prev < stamp <= curr for stamp in stamps)
            and all(a < b for a, b in zip(stamps, stamps[1:])))


def gossip(store, prev, curr, stamps):
    if not is_shaped(prev, curr, stamps):
        return SHAPE, 0
    if prev > store.horizon:
        return GAP, store.horizon
    known_to = min(curr, store.horizon)
    told = {stamp for stamp in stamps if stamp <= known_to}
    known = {stamp for stamp in store.snapshots if prev < stamp <= known_to}
    if told != known:
        return CONFLICT, min(told ^ known)
    if curr <= store.horizon:
        return NOTHING, None
    new = [stamp for stamp in stamps if stamp > store.horizon]
    if len(store.snapshots) + len(new) > MOST_SNAPSHOTS:
        return SNAPSHOTS_FULL, 0

    def apply():
        store.snapshots += new
        store.horizon = curr
        marks = [store.mark(page) for page in range(PAGES)]
        store.past = [row for row in store.past if store.live(row, marks[row[0] // SLOTS])]
    return DONE, apply


def flush(store, page):
    if page >= PAGES:
        return SHAPE, 0
    due = store.due(page)
    waiting = [thing for thing in store.pending if thing // SLOTS == page]
    if not waiting and not due:
        return NOTHING, None
    if len(store.copies) + len(due) > MOST_COPIES:
        return ARCHIVE_FULL, 0
    copies = [(page, stamp, tuple(store.page_as_of(page, stamp))) for stamp in due]
    rows = store.past + [(thing, store.stamps[thing], store.pending[thing][0], store.values[thing])
                         for thing in waiting]
    mark = due[-1] if due else store.mark(page)
    rows = [row for row in rows if row[0] // SLOTS != page or store.live(row, mark)]
    if len(rows) > MOST_PAST:
        return PAST_FULL, 0

    def apply():
        store.copies += copies
        store.past = rows
        for thing in waiting:
            _, store.stamps[thing], store.values[thing] = store.pending.pop(thing)
    return DONE, apply


CHANGES = {"commit": commit, "gossip": gossip, "flush": flush}


# ---- the reads ----

def read(store, time, page):
    if page >= PAGES:
        return SHAPE, 0, []
    if time > store.horizon:
        return AHEAD, store.horizon, []
    at = bisect_right(store.snapshots, time)
    if at == 0:
        return NO_SNAPSHOT, 0, []
    stamp = store.snapshots[at - 1]
    return DONE, stamp, store.page_as_of(page, stamp)


def clock(store, tick, page):
    if tick >= TICKS or page >= PAGES:
        return SHAPE, 0, []
    return read(store, 256 * tick, page)


def now(store, page):
    if page >= PAGES:
        return SHAPE, 0, []
    return DONE, 0, [store.current(thing)[0] for thing in things_of(page)]


def standing(store):
    lag = store.last // 256 - store.horizon // 256
    return DONE, 0, [len(store.pending), len(store.past), len(store.snapshots), len(store.copies), lag]


def known(store):
    return DONE, 0, [store.horizon, store.last] + store.snapshots


READS = {"read": read, "clock": clock, "now": now, "standing": standing, "known": known}


# ---- the journal ----

def record(name, arguments):
    """The bytes of a change's record, its length first."""
    if name == "commit":
        stamp, writes = arguments
        body = b"\x01" + word(stamp) + bytes([len(writes)])
        body += b"".join(thing.to_bytes(2, "big") + word(value) for thing, value in writes)
    elif name == "gossip":
        prev, curr, stamps = arguments
        body = b"\x02" + word(prev) + word(curr) + bytes([len(stamps)]) + b"".join(map(word, stamps))
    else:
        body = b"\x03" + bytes(arguments)
    return len(body).to_bytes(2, "big") + body


def word(number):
    return number.to_bytes(8, "big")


def unword(data, at):
    return int.from_bytes(data[at:at + 8], "big")


def decode(body):
    """The call in a whole record's kind and body, or None where its form is wrong."""
    if body[0] == 1 and len(body) >= 10 and len(body) == 10 + 10 * body[9]:
        writes = [(int.from_bytes(body[at:at + 2], "big"), unword(body, at + 2))
                  for at in range(10, len(body), 10)]
        return "commit", (unword(body, 1), writes)
    if body[0] == 2 and len(body) >= 18 and len(body) == 18 + 8 * body[17]:
        stamps = [unword(body, at) for at in range(18, len(body), 8)]
        return "gossip", (unword(body, 1), unword(body, 9), stamps)
    if body[0] == 3 and len(body) == 2:
        return "flush", (body[1],)
    return None


def restart(data):
    """Code, number and store of a restart from these bytes."""
    return walk(data)[:3]


def walk(data):
    """The same, and the records that it took: place, bytes with the length's own two, call."""
    taken = []
    if len(data) > JOURNAL_ROOM:
        return SHAPE, 0, Store(), taken
    if not data:
        return DONE, 0, Store(), taken
    if data[0] != 1:
        return VERSION, data[0], Store(), taken
    store, place = Store(), 1
    while len(data) - place >= 2:
        length = int.from_bytes(data[place:place + 2], "big")
        if not 2 <= length <= 170:
            return MALFORMED, place, Store(), taken
        body = data[place + 2:place + 2 + length]
        if len(body) < length:
            break
        call = decode(body)
        if call is None:
            return MALFORMED, place, Store(), taken
        code, rest = CHANGES[call[0]](store, *call[1])
        if code in (SHAPE, TWICE):
            return MALFORMED, place, Store(), taken
        if code != DONE:
            return CONTRADICTION, place, Store(), taken
        rest()
        taken.append((place, 2 + length, call))
        place += 2 + length
    return DONE, place, store, taken


def records(data):
    """The lines that show a journal: each record that a restart takes, and where and why it ends."""
    code, number, _, taken = walk(data)
    lines = ["%s  # %d %d" % (line_of(*call), place, length) for place, length, call in taken]
    if code != DONE:
        return lines + ["# " + show(code, number)]
    return lines + ["# %d end" % number if number == len(data) else "# %d torn, %d bytes" % (number, len(data) - number)]


# ---- what a repository and a coordinator send each other ----

REQUEST_LENGTH = 19


def request(start, to):
    """The record of kind 4: a repository asks for what lies between its horizon and a clock stamp."""
    return b"\x00\x11\x04" + word(start) + word(to)


def request_in(data):
    """What is asked for, where the bytes are one whole record of kind 4 and nothing else."""
    if len(data) == REQUEST_LENGTH and data[:3] == b"\x00\x11\x04":
        return unword(data, 3), unword(data, 11)
    return None


def message_in(data):
    """What is told, where the bytes are one whole, well-formed record of kind 2 and nothing else."""
    length = int.from_bytes(data[:2], "big")
    if len(data) < 3 or len(data) != 2 + length or data[2] != 2:
        return None
    call = decode(data[2:])
    return call[1] if call and is_shaped(*call[1]) else None


# ---- the coordinator ----

class Coordinator:
    """The stamps that it has granted, and the largest curr that it has sent. Its calls give code, number and what is shown."""

    def __init__(self, granted=(), sent=0):
        self.granted, self.sent = list(granted), sent

    def copy(self):
        return Coordinator(self.granted, self.sent)

    def top(self):
        return max(self.granted[-1:] + [self.sent])

    def grant(self, tick, node):
        if tick >= TICKS or node >= NODES:
            return SHAPE, 0, []
        stamp = 256 * tick + node
        if stamp <= self.top():
            return LATE, self.top(), []
        if len(self.granted) == MOST_GRANTED:
            return SNAPSHOTS_FULL, 0, []
        self.granted.append(stamp)
        return DONE, stamp, []

    def message(self, prev, clock):
        if clock < prev:
            return SHAPE, 0, []
        stamps = [stamp for stamp in self.granted if prev < stamp <= clock]
        curr = clock if len(stamps) <= MOST_STAMPS else stamps[MOST_STAMPS - 1]
        self.sent = max(self.sent, curr)
        data = record("gossip", (prev, curr, stamps[:MOST_STAMPS]))
        return DONE, len(data), [data.hex()]

    def serve(self, data):
        asked = request_in(data)
        return self.message(*asked) if asked else (MALFORMED, 0, [])

    def told(self):
        return DONE, 0, [len(self.granted), self.sent] + self.granted

    def kept(self):
        """The bytes of its file."""
        return b"\x01" + word(self.sent) + bytes([len(self.granted)]) + b"".join(map(word, self.granted))


def restart_coordinator(data):
    """Code, number and coordinator of a restart from these bytes."""
    if not data:
        return DONE, 0, Coordinator()
    if data[0] != 1:
        return VERSION, data[0], Coordinator()
    if len(data) < 10:
        return MALFORMED, 1, Coordinator()
    if data[9] > MOST_GRANTED or len(data) != 10 + 8 * data[9]:
        return MALFORMED, 9, Coordinator()
    stamps, last = [], 0
    for at in range(10, len(data), 8):
        if unword(data, at) <= last:
            return MALFORMED, at, Coordinator()
        last = unword(data, at)
        stamps.append(last)
    return DONE, len(data), Coordinator(stamps, unword(data, 1))


# ---- a line and its call ----

FORMS = {  # name: how many numbers, then what list
    b"commit": (1, "pairs"), b"gossip": (2, "numbers"), b"flush": (1, None), b"read": (2, None),
    b"clock": (2, None), b"now": (1, None), b"standing": (0, None), b"fresh": (0, None),
    b"cut": (1, None), b"known": (0, None), b"quit": (0, None), b"exit": (0, None), b"help": (0, "topic"),
    b"ask": (1, None), b"hear": (0, "hex"),
}
ORDERS = {  # the coordinator's
    b"grant": (2, None), b"message": (2, None), b"serve": (0, "hex"), b"granted": (0, None),
    b"quit": (0, None), b"exit": (0, None), b"help": (0, None),
}
TOPICS = (None, b"codes", b"standing")  # what help may be asked about
MARK = b"\xef\xbb\xbf"  # the UTF-8 mark that some editors put in front of a text
UNKNOWN, MISSING, DIGIT = "no such call", "a word is missing", "no digit"
LARGE, EQUALS, EXTRA = "a number of 2^64 or more", "`=` is missing", "a word too many"
HEX, LONG, ODD = "no hex digit", "more than 1024 hex digits", "an odd number of hex digits"


class Fault(Exception):
    """What is wrong with a line, and the column, counted from 1."""

    def told(self, line):
        """The answer to the line of this number."""
        what, column = self.args
        return "? %s at line %d column %d" % (what, line, column) + "; help lists them" * (what == UNKNOWN)


def words_of(line):
    """The words before any `#`, one after the other, each with its first column; and the column behind them all."""
    line = line.split(b"#")[0]
    return ((found.group(), found.start() + 1) for found in re.finditer(rb"[^ \t\r]+", line)), len(line) + 1


def number(text, column):
    """A text of digits as a number; the column is that of its first byte."""
    if not text:
        raise Fault(MISSING, column)
    rest = text.lstrip(b"0123456789")
    if rest:
        raise Fault(DIGIT, column + len(text) - len(rest))
    digits = text.lstrip(b"0") or b"0"
    if len(digits) > 20 or int(digits) >= WORD:
        raise Fault(LARGE, column)
    return int(digits)


def pair(text, column):
    """OBJECT=VALUE, parted at the first `=`."""
    thing, equals, value = text.partition(b"=")
    thing_number = number(thing, column)
    if not equals:
        raise Fault(EQUALS, column + len(text))
    return thing_number, number(value, column + len(thing) + 1)


def hex_bytes(text, column):
    """A text of hex digits as bytes."""
    if not text:
        raise Fault(MISSING, column)
    rest = text.lstrip(b"0123456789abcdefABCDEF")
    if rest:
        raise Fault(HEX, column + len(text) - len(rest))
    if len(text) > MOST_HEX:
        raise Fault(LONG, column)
    if len(text) % 2:
        raise Fault(ODD, column)
    return bytes.fromhex(text.decode())


def topic_word(text, column):
    if text not in TOPICS:
        raise Fault(UNKNOWN, column)


def parse(line, forms=FORMS):
    """None for a line passed over, else the call's name and arguments. Raises Fault."""
    words, end = words_of(line)
    name, column = next(words, (None, None))
    if name is None:
        return None
    if name not in forms:
        raise Fault(UNKNOWN, column)
    count, rest = forms[name]
    arguments = [number(*next(words, (b"", end))) for _ in range(count)]
    if rest == "topic":
        topic_word(*next(words, (None, None)))
    elif rest == "hex":
        arguments.append(hex_bytes(*next(words, (b"", end))))
    elif rest is not None:
        one = pair if rest == "pairs" else number
        arguments.append([one(*word) for word in words])
    for _, column in words:
        raise Fault(EXTRA, column)
    return name.decode(), arguments


# ---- the commands: a line's answer, with the journal or the coordinator's file behind it ----

END = "the end of the program"  # in the place of an answer to quit and exit


def show(code, number, figures=()):
    return " ".join([str(code), str(number), NAMES[code]] + [str(figure) for figure in figures])


class Lines:
    """What both commands do with a line."""

    def answer(self, line, at=1):
        """The answer to a line of bytes without its newline, or None where it is passed over. The input's first line is at 1."""
        if len(line) > LONGEST_LINE:
            return "? line %d is longer than 1048576 bytes" % at
        if at == 1 and line.startswith(MARK):
            line = line[len(MARK):]
        try:
            call = parse(line, self.forms)
        except Fault as fault:
            return fault.told(at)
        return None if call is None else self.call(*call)


class Command(Lines):
    """The command without a file: its store, and the used bytes of its journal."""

    forms = FORMS

    def __init__(self, data=b""):
        self.code, self.place, self.store = restart(data)
        self.journal = data[:self.place] if self.code == DONE else b""

    def copy(self):
        other = Command.__new__(Command)
        other.code, other.place = self.code, self.place
        other.store, other.journal = self.store.copy(), self.journal
        return other

    def change(self, name, arguments):
        """Code and number of a change; where it is done, its record is in the journal."""
        code, rest = CHANGES[name](self.store, *arguments)
        if code == NOTHING:
            return NOTHING, len(self.journal)
        if code != DONE:
            return code, rest
        more = (b"" if self.journal else b"\x01") + record(name, arguments)
        if len(self.journal) + len(more) > JOURNAL_ROOM:
            return NO_ROOM, len(self.journal) + len(more)
        rest()
        self.journal += more
        return DONE, len(self.journal)

    def ask(self, to):
        """The request for all that lies between the horizon and a clock stamp."""
        if to < self.store.horizon:
            return SHAPE, 0, []
        return DONE, REQUEST_LENGTH, [request(self.store.horizon, to).hex()]

    def hear(self, data):
        """A message's bytes; behind a gap stands the request that would close it."""
        told = message_in(data)
        if told is None:
            return MALFORMED, 0, []
        code, number = self.change("gossip", told)
        return code, number, self.ask(told[1])[2] if code == GAP else []

    def call(self, name, arguments):
        """The answer's text; help has none that is settled."""
        if name in ("quit", "exit"):
            return END
        if name in CHANGES:
            return show(*self.change(name, arguments))
        if name in ("ask", "hear"):
            return show(*getattr(self, name)(*arguments))
        if name == "fresh":
            self.__init__()
            return show(DONE, 0)
        if name == "cut":
            self.__init__(self.journal[:arguments[0]])
            return show(self.code, self.place)
        return show(*READS[name](self.store, *arguments))


class Coordinating(Lines):
    """The coordinator's command without its file: the coordinator, and the bytes that its file holds. They change with it."""

    forms = ORDERS

    def __init__(self, data=b""):
        self.code, self.place, self.coordinator = restart_coordinator(data)
        self.file = data if self.code == DONE else b""

    def copy(self):
        other = Coordinating.__new__(Coordinating)
        other.code, other.place = self.code, self.place
        other.coordinator, other.file = self.coordinator.copy(), self.file
        return other

    def call(self, name, arguments):
        """The answer's text; help has none that is settled."""
        if name in ("quit", "exit"):
            return END
        if name == "granted":
            return show(*self.coordinator.told())
        before = self.coordinator.kept()
        answer = show(*getattr(self.coordinator, name)(*arguments))
        if self.coordinator.kept() != before:
            self.file = self.coordinator.kept()
        return answer


def line_of(name, arguments):
    """The line that makes a call, as text."""
    words = [name]
    for argument in arguments:
        if isinstance(argument, bytes):
            words.append(argument.hex())
        elif not isinstance(argument, (list, tuple)):
            words.append(str(argument))
        elif name == "commit":
            words += ["%d=%d" % item for item in argument]
        else:
            words += [str(item) for item in argument]
    return " ".join(words)
