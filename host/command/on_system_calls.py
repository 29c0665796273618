# Tests by strace, system call by system call: synced before it is acknowledged; killed, held or refused at each of them.

import os
import re
import shutil
import subprocess
import time
from concurrent.futures import ThreadPoolExecutor
from itertools import product

import chance as chances
import model
from bench import (
    Skipped, a_journal, boot, clear, dead_number, expect_held, expect_stopped, expect_whole_around_fresh, lines_in,
    opened_among, survivors, test, torn_tail)
from running import Failed, contents, expect, put, shown


def strace(bench, words, path, data, program=None):
    """Runs the program under strace, which may hold, kill or refuse its system calls. Gives both outputs."""
    if shutil.which("strace") is None:
        raise Skipped("there is no strace here")
    done = subprocess.run(["strace", *words, (program or bench.bare).path, path], input=data, capture_output=True, timeout=60)
    if b"ptrace" in done.stderr.lower() and b"permitted" in done.stderr:
        raise Skipped("strace is not permitted here")
    return done.stdout, done.stderr


def traced(bench, path, lines, program=None):
    """Standard output and all system calls in their order while the lines are served."""
    trace = bench.path("trace")
    out, _ = strace(bench, ["-s", "64", "-o", trace], path, b"\n".join(lines) + b"\n", program)
    return out, contents(trace).decode("latin-1").split("\n")


CHANGING = re.compile(r"(write|pwrite64|rename|unlink|ftruncate|fsync|fdatasync)\((?!2,)|read\(0,|open\w*\(.*O_CREAT")
LOOKING = re.compile(r"open\w*\(|\w*stat\w*\(|getpgid\(")


def moments(calls, first, last=None, looks=False):
    """The calls of a trace from the one that shows one text to the one that shows another: name and how many-th of its name.
    Those that only look are mostly left out, since before the next one that changes something all is the same."""
    counts, found, inside = {}, [], False
    for call in calls:
        name = call.partition("(")[0]
        counts[name] = counts.get(name, 0) + 1
        inside = inside or first in call
        if inside and (CHANGING.match(call) or looks and LOOKING.match(call)):
            found.append((name, counts[name]))
        if inside and last and last in call:
            break
    expect(found, "the trace never shows", first)
    return found


def opening(calls, path):
    """Where in the trace the journal was opened to be written, for the last time, and its descriptor."""
    for at in range(len(calls) - 1, -1, -1):
        found = re.search(r"= (\d+)$", calls[at])
        if calls[at].startswith("open") and '"%s"' % path in calls[at] and "O_RDWR" in calls[at] and found:
            return at, found.group(1)
    raise Failed("the journal is never opened in the trace")


def order_of(calls, path):
    """One letter for each call: w a write to the journal, c a cut of it, s a sync of it, a an answer."""
    start, descriptor = opening(calls, path)
    order = ""
    for call in calls[start:]:
        if re.match(r"(pwrite64|pwritev|write|writev)\(%s," % descriptor, call):
            order += "w"
        elif re.match(r"ftruncate\(%s," % descriptor, call):
            order += "c"
        elif re.match(r"(fdatasync|fsync)\(%s\)\s+= 0" % descriptor, call):
            order += "s"
        elif re.match(r"write(v)?\(1,", call):
            order += "a"
    return order


@test
def synced_before_it_is_acknowledged(bench):
    path = bench.path()
    lines = [b"commit 5 0=1", b"commit 6 0=2", b"gossip 0 6 5", b"flush 0", b"commit 7 0=3"]
    out, calls = traced(bench, path, lines)
    expect(len(lines_in(out)) == 6, "answers", shown(out))
    order = order_of(calls, path)
    expect(re.fullmatch(r"sa+(w+sa+){5}s?", order), "write, sync, answer come in the order", order)
    refused = [b"commit 7 0=1", b"now 0", b"standing", b"known", b"flush 1", b"x"]
    _, calls = traced(bench, path, refused)
    order = order_of(calls, path)
    expect("w" not in order and "c" not in order, "calls that change nothing write:", order)


def kept_order(calls, path):
    """One letter for each call around a torn tail: m its file is made, w written, s synced, f the folder synced; C the journal is
    cut, S synced, O opened; the rest is left out."""
    _, journal = opening(calls, path)
    order, file, folder = "", None, None
    for call in calls:
        done = re.search(r"= (\d+)$", call)
        if call.startswith("open") and done and ".torn-" in call and "O_CREAT" in call:
            order, file = order + "m", done.group(1)
        elif call.startswith("open") and done and '"%s"' % os.path.dirname(path) in call:
            folder = done.group(1)
        elif file and re.match(r"p?write(v|64)?\(%s," % file, call):
            order += "w"
        elif file and re.match(r"(fdatasync|fsync)\(%s\)\s+= 0" % file, call):
            order += "s"
        elif folder and re.match(r"fsync\(%s\)\s+= 0" % folder, call):
            order += "f"
        elif re.match(r"close\((%s|%s)\)" % (file, folder), call):
            file, folder = (None, folder) if call.startswith("close(%s)" % file) else (file, None)
        elif re.match(r"ftruncate\(%s, \d+\)\s+= 0" % journal, call):
            order += "C"
        elif re.match(r"(fdatasync|fsync)\(%s\)\s+= 0" % journal, call):
            order += "S"
        elif re.match(r'write\(1, "opened', call):
            order += "O"
    return order


@test
def a_torn_tail_is_kept_before_it_is_cut(bench):
    """Its file is written and synced, then its name in the folder, and only then the journal is cut, synced, and opened."""
    path, command = bench.path(), a_journal()
    put(path, command.journal + torn_tail(bench.chance, command))
    out, calls = traced(bench, path, [b"now 0", b"commit 18446744073709551615 0=1"])
    order = kept_order(calls, path)
    expect(re.match(r"S?mw+sfCSO", order), "the tail is kept and cut in the order", order)
    cuts = [at for at, call in enumerate(calls) if call.startswith("ftruncate") or "O_TRUNC" in call and path in call]
    asked = [at for at, call in enumerate(calls) if call.startswith("read(0,")]
    expect(cuts and asked and cuts[0] < asked[0], "the tail is not cut before the first call is taken")
    expect(contents(path).startswith(command.journal) and len(lines_in(out)) == 3, "answers", shown(out))


@test
def a_torn_tail_that_cannot_be_kept(bench):
    """Each call that makes, writes and syncs its file in its turn gives an error: nothing is cut, there is a word and no line."""
    path, command = bench.path(), a_journal(12)
    data = command.journal + torn_tail(bench.chance, command)
    put(path, data)
    _, calls = traced(bench, path, [])
    places = [place for place in moments(calls, ".torn-1", "ftruncate(") if place[0] != "ftruncate"]
    expect(len(places) >= 4, "the trace shows only", places)
    for (name, count), fault in product(places, ("EIO", "ENOSPC")):
        clear(path)
        put(path, data)
        words = ["-o", os.devnull, "-e", "trace=" + name, "-e", "inject=%s:error=%s:when=%d" % (name, fault, count)]
        out, err = strace(bench, words, path, b"standing\ncommit 18446744073709551615 0=1\n")
        what = "%s number %d gives %s" % (name, count, fault)
        expect(out == b"", what, "and it is served:", shown(out))
        expect(err, what, "without a word")
        expect(contents(path) == data, what, "and the journal is", len(contents(path)), "bytes long, not", len(data))
        expect_held(bench, path, command, bench.bare)
    bench.tell("%d moments" % len(places))


def killed_at(bench, path, moment, data, program=None):
    words = ["-o", os.devnull, "-e", "trace=" + moment[0], "-e", "inject=%s:signal=KILL:when=%d" % moment]
    return strace(bench, words, path, data, program)[0]


@test
def killed_at_every_system_call(bench):
    path, before = bench.path(), a_journal(12)
    tail = torn_tail(bench.chance, before)
    steps = chances.plan(bench.chance, before.copy(), 6)
    data = chances.lines_of(steps)
    put(path, before.journal + tail)
    put(path + ".lock", b"%d\n" % dead_number())
    _, calls = traced(bench, path, data.split(b"\n")[:-1])
    places = moments(calls, ".lock")
    for at, moment in enumerate(places):
        clear(path)
        put(path, before.journal + tail)
        put(path + ".lock", b"%d\n" % dead_number() if at % 2 else b"%d 5 %s\n" % (dead_number(), boot()))
        out = killed_at(bench, path, moment, data)
        try:
            expect_held(bench, path, survivors(path, before.copy(), steps, tail, out), bench.bare)
        except Failed as why:
            raise Failed("killed at %s number %d:" % moment, why)
    bench.tell("%d moments" % len(places))


@test
def killed_at_every_system_call_of_fresh(bench):
    path, old, before = bench.path(), bench.path("journal.old"), a_journal(8)
    line = b"commit 9 1=9"
    put(path, before.journal)
    _, calls = traced(bench, path, [b"fresh", line])
    places = moments(calls, "fresh")
    for moment in places:
        clear(path)
        put(path, before.journal)
        killed_at(bench, path, moment, b"fresh\n" + line + b"\n")
        try:
            expect_whole_around_fresh(bench, path, old, before, line, bench.bare)
        except Failed as why:
            raise Failed("killed at %s number %d:" % moment, why)
    bench.tell("%d moments" % len(places))


@test
def a_disk_that_fails(bench):
    """Each write and each sync in its turn gives an error: no change is acknowledged that is not in the file."""
    before = a_journal(12)
    stamp = max(before.store.last, before.store.horizon)
    lines = [b"commit %d 3=%d" % (stamp + 1 + turn, turn) for turn in range(4)]
    put(bench.path(), before.journal)
    _, calls = traced(bench, bench.path(), lines)
    first = dict(reversed(moments(calls, '"opened')))
    for name, turn, fault in product(("pwrite64", "fdatasync"), (1, 2, 4), ("EIO", "ENOSPC")):
        put(bench.path(), before.journal)
        when = first[name] + turn - 1
        words = ["-o", os.devnull, "-e", "trace=" + name, "-e", "inject=%s:error=%s:when=%d" % (name, fault, when)]
        out, err = strace(bench, words, bench.path(), b"\n".join(lines) + b"\n")
        try:
            data = expect_stopped(bench, bench.path(), before, lines, out, err)
            expect(len(lines_in(out)) == turn, "answers", shown(out))
            expect_held(bench, bench.path(), model.Command(data), bench.bare)
        except Failed as why:
            raise Failed(name, "number", turn, "gives", fault + ":", why)


@test
def fresh_on_a_disk_that_fails(bench):
    """Each call that changes something in its turn gives an error: fresh is not answered, and the old journal is whole."""
    path, old, before = bench.path(), bench.path("journal.old"), a_journal(8)
    put(path, before.journal)
    _, calls = traced(bench, path, [b"fresh"])
    places = [place for place in moments(calls, '"fresh', '"0 0 Done') if place[0] not in ("read", "write")]
    expect(len(places) >= 3, "the trace shows only", places)
    for moment in places:
        clear(path)
        put(path, before.journal)
        words = ["-o", os.devnull, "-e", "trace=" + moment[0], "-e", "inject=%s:error=EIO:when=%d" % moment]
        out, err = strace(bench, words, path, b"fresh\ncommit 9 1=9\n")
        expect(len(lines_in(out)) == 1, moment, "fails, and fresh is answered:", shown(out))
        expect(err, moment, "fails without a word")
        try:
            expect_whole_around_fresh(bench, path, old, before, b"commit 9 1=9", bench.bare)
        except Failed as why:
            raise Failed("%s number %d fails:" % moment, why)


@test
def a_tail_that_cannot_be_cut(bench):
    """The cut itself, and the sync behind it, give an error: no line, a word, and the tail is kept all the same."""
    before, path = a_journal(12), bench.path()
    tail = torn_tail(bench.chance, before)
    put(path, before.journal + tail)
    _, calls = traced(bench, path, [])
    places = [place for place in moments(calls, "ftruncate(", '"opened') if place[0] != "write"]
    expect(len(places) == 2, "the trace shows", places)
    for moment in places:
        clear(path)
        put(path, before.journal + tail)
        words = ["-o", os.devnull, "-e", "trace=" + moment[0], "-e", "inject=%s:error=EIO:when=%d" % moment]
        out, err = strace(bench, words, path, b"standing\ncommit 18446744073709551615 0=1\n")
        expect(out == b"", moment, "fails, and it is served:", shown(out))
        expect(err, moment, "fails without a word")
        expect(contents(path) in (before.journal, before.journal + tail), "the file was written")
        expect(contents(path + ".torn-1") == tail, "the tail is not kept")
        expect_held(bench, path, before, bench.bare)


def held_at(bench, path, moment, seconds):
    """A program that waits a while before one of its system calls, and a while after it."""
    name, count = moment
    words = ["strace", "-D", "-o", os.devnull, "-e", "trace=" + name,
             "-e", "inject=%s:delay_enter=%d:delay_exit=%d:when=%d" % (name, seconds * 1e6, seconds * 1e6, count)]
    return subprocess.Popen([*words, bench.bare.path, path],
                            stdin=subprocess.PIPE, stdout=subprocess.PIPE, stderr=subprocess.PIPE)


def opened_around(bench, path, moment, seconds):
    """One program held at a system call, a second started before that call is done and a third after it: how many open."""
    first = held_at(bench, path, moment, seconds)
    time.sleep(0.4 * seconds)
    second = bench.bare.start(path)
    time.sleep(seconds)
    third = bench.bare.start(path)
    return opened_among([first, second, third])


def two_opened(bench, folder, left, seconds):
    """Holds a program at each moment of its taking the lock; gives the moments at which more than one program opened. What is left
    of an earlier one is given by the ends of its names."""
    os.mkdir(folder)
    path = os.path.join(folder, "trace")
    lock = lambda name: [put(name + end, text) for end, text in left.items()]
    lock(path)
    _, calls = traced(bench, path, [])
    places = moments(calls, ".lock", '"opened', looks=True)
    faults = []

    def one(at):
        own = os.path.join(folder, "journal%d" % at)
        lock(own)
        if opened_around(bench, own, places[at], seconds) > 1:
            faults.append("%s %d" % places[at])
    with ThreadPoolExecutor(40) as pool:
        list(pool.map(one, range(len(places))))
    return len(places), faults


# held longer than another's patience with a lock that has no number yet, and with one whose process lives

@test
def three_programs_one_held_while_it_takes_the_lock(bench):
    count, faults = two_opened(bench, bench.path("free"), {}, 3.0)
    bench.tell("%d moments" % count)
    expect(not faults, "two opened one journal, the first held at", ", ".join(faults))


@test
def three_programs_one_held_while_it_takes_over_a_lock(bench):
    count, faults = two_opened(bench, bench.path("dead"), {".lock": b"%d\n" % dead_number()}, 2.5)
    bench.tell("%d moments" % count)
    expect(not faults, "two opened one journal, the first held at", ", ".join(faults))


@test
def three_programs_one_held_while_it_takes_over_a_lock_and_its_guard(bench):
    line = b"%d 5 %s\n" % (dead_number(), boot())
    count, faults = two_opened(bench, bench.path("dead"), {".lock": line, ".lock.take": line}, 2.5)
    bench.tell("%d moments" % count)
    expect(not faults, "two opened one journal, the first held at", ", ".join(faults))
