# What every test is given, and what they expect in common: answers, journals, locks.

import os
import random
import select
import subprocess
from concurrent.futures import ThreadPoolExecutor

import chance as chances
import model
from running import PATIENCE, contents, expect, put, shown

TESTS = []


class Skipped(Exception):
    """A test that this machine does not allow."""


class Bench:
    """What a test is given: the script as a person uses it, the programs without the script, a folder of its own, a seeded
    source of chance. Tests that start it very often or know its process number use the bare program."""

    def __init__(self, program, folder, quick, seed, kills):
        self.program, self.folder, self.quick_folder, self.kills = program, folder, quick, kills
        self.bare, self.lags = program.bare(), {}
        self.coordinator, self.bare_coordinator = program.coordinator(), program.bare_coordinator()
        self.chance = random.Random(seed)
        self.words = []

    def tell(self, text):
        """A word for the verdict's line."""
        self.words.append(text)

    def path(self, name="journal"):
        return os.path.join(self.folder, name)

    def quick(self, name="journal"):
        """A path where a sync costs nothing, if the machine has such: many more changes between two kills."""
        return os.path.join(self.quick_folder, name)


def test(function):
    TESTS.append((function.__name__.replace("_", " "), function))
    return function


# ---- lines and words of the command ----

def named(path):
    """A path as its bytes stand in an output."""
    return os.fsencode(path).decode("latin-1")


def opened(path, code, number):
    return "opened %s: %s" % (named(path), model.show(code, number))


def refused(path, code, number):
    return "refused %s: %s" % (named(path), model.show(code, number))


def torn_word(path, count, number):
    return "%s: %d bytes behind the last whole record are kept in %s.torn-%d" % (named(path), count, named(path), number)


def moved_word(path):
    return named(path) + ": the open file is no longer at this name; nothing more is written"


def full_word(path, used):
    return "%s: over nine tenths full: %d bytes used, %d left" % (named(path), used, model.JOURNAL_ROOM - used)


def is_full(used):
    return 10 * used > 9 * model.JOURNAL_ROOM


def full_words(path, place, asked, answers):
    """What must be said of a journal's fullness: at its start, and whenever a change passes nine tenths."""
    changes = (b"commit", b"gossip", b"flush", b"fresh", b"hear")
    lengths = [place] + [int(answer.split()[1]) for line, answer in zip(asked, answers)
                         if answer.startswith("0 ") and line.split()[0] in changes]
    return [full_word(path, used) for before, used in zip([0] + lengths, lengths) if is_full(used) and not is_full(before)]


# ---- looking at answers and files ----

def lines_in(out):
    """The lines of an output; every one has its end."""
    expect(out == b"" or out.endswith(b"\n"), "the last answer has no end:", shown(out[-80:]))
    return out.decode("latin-1").split("\n")[:-1]


def expect_lines(got, wanted, asked=None):
    for at, (one, other) in enumerate(zip(got, wanted)):
        about = "" if asked is None or at >= len(asked) else shown(asked[at], 120)
        expect(one == other, "answer", at + 1, about, "is", shown(one), "and should be", shown(other))
    expect(len(got) == len(wanted), len(got), "answers, and should be", len(wanted), shown(got[-2:]), shown(wanted[-2:]))


def answered(command, lines):
    """The model's answers to lines of bytes, those passed over left out, and the lines that have one."""
    answers, asked = [], []
    for at, line in enumerate(lines, 1):
        answer = command.answer(line, at)
        if answer is model.END:
            break
        if answer is not None:
            answers.append(answer)
            asked.append(line)
    return answers, asked


def expect_served(bench, lines, path=None, command=None):
    """Runs lines of bytes, in memory or on a journal, and holds every answer and the journal against the model."""
    command = command or model.Command(contents(path) if path else b"")
    place = len(command.journal)
    wanted, asked = answered(command, lines)
    out, err = bench.program.run(b"".join(line + b"\n" for line in lines), *([path] if path else []))
    got = lines_in(out)
    if path:
        expect(got[:1] == [opened(path, model.DONE, place)], "the first line is", shown(got[:1]))
        got = got[1:]
    expect_lines(got, wanted, asked)
    words = full_words(path, place, asked, wanted) if path else []
    expect(lines_in(err) == words, "standard error says", shown(err), "and should say", words)
    if path:
        expect(contents(path) == command.journal, "the journal's bytes differ from 01's records")
        expect_unlocked(path)
    return command


def survey(chance, store):
    """Lines that show the whole of the store: its figures, every page now, and some pages as they were."""
    lines = [b"standing", b"known"] + [b"now %d" % page for page in range(model.PAGES)]
    for stamp in chance.sample(store.snapshots, min(4, len(store.snapshots))):
        lines += [b"read %d %d" % (stamp, page) for page in chance.sample(range(model.PAGES), 2) + [0, 1]]
    return lines


def expect_unlocked(path):
    expect(not os.path.lexists(path + ".lock"), "the lock is still there after the end")


def torn_files(path):
    """What is kept of torn tails beside a journal: number and bytes."""
    start = os.path.basename(path) + ".torn-"
    ends = [name[len(start):] for name in os.listdir(os.path.dirname(path)) if name.startswith(start)]
    return {int(end): contents(path + ".torn-" + end) for end in ends if end.isdigit() and os.path.isfile(path + ".torn-" + end)}


def clear(path):
    """Removes a journal and all files that are named after it."""
    start = os.path.basename(path)
    for name in os.listdir(os.path.dirname(path)):
        if name == start or name.startswith(start + "."):
            os.remove(os.path.join(os.path.dirname(path), name))


def first_free(path):
    """The number of the next torn tail: nothing has its name, not even a link that leads nowhere."""
    number = 1
    while os.path.lexists("%s.torn-%d" % (path, number)):
        number += 1
    return number


def expect_held(bench, path, wanted, program=None):
    """Opens a journal that must hold exactly the model's records, and looks at all of it. What lay behind them is kept beside it.
    Gives the words on standard error that are about neither that nor the journal's fullness."""
    lines, place = survey(bench.chance, wanted.store), len(wanted.journal)
    tail, number, kept = contents(path)[place:], first_free(path), torn_files(path)
    out, err = (program or bench.program).run(b"\n".join(lines) + b"\n", path)
    answers, asked = answered(wanted.copy(), lines)
    expect_lines(lines_in(out), [opened(path, model.DONE, place)] + answers, [b""] + asked)
    expect(contents(path) == wanted.journal, "after opening the file is not the whole records:", shown(contents(path)[-60:]))
    expect_unlocked(path)
    if tail:
        kept[number] = tail
    expect(torn_files(path) == kept, "kept of torn tails is", shown(torn_files(path)), "and should be", shown(kept))
    words = [torn_word(path, len(tail), number)] * bool(tail) + [full_word(path, place)] * is_full(place)
    said = lines_in(err)
    for word in words:
        expect(word in said, "standard error says", shown(said), "and not", word)
        said.remove(word)
    expect(not any(".torn-" in word or "nine tenths" in word for word in said), "standard error says", shown(said))
    return said


def picture(folder):
    """All that a folder holds, and when each was last written."""
    held = {}
    for name in sorted(os.listdir(folder)):
        path = os.path.join(folder, name)
        what = os.readlink(path) if os.path.islink(path) else picture(path) if os.path.isdir(path) else contents(path)
        held[name] = what, os.lstat(path).st_mtime_ns
    return held


def expect_same(folder, before):
    """Nothing in a folder has changed since its picture was taken."""
    after = picture(folder)
    for name in sorted(before.keys() | after.keys()):
        expect(name in before, "there is a new file", name, shown(after.get(name)))
        expect(name in after, name, "is gone")
        expect(after[name] == before[name], name, "was", shown(before[name]), "and is", shown(after[name]))


def put_early(path, data):
    """A file that was last written long ago, so that any writing shows."""
    put(path, data)
    os.utime(path, (10 ** 9, 10 ** 9))


def expect_refused(bench, path, code, number, program=None):
    """Opens a journal that must be refused: one line, nothing changed, no call taken."""
    put_early(path, contents(path))
    before = picture(os.path.dirname(path))
    out, err = (program or bench.program).run(b"standing\ncommit 18446744073709551615 0=1\n", path)
    expect_lines(lines_in(out), [refused(path, code, number)])
    expect(err == b"", "standard error is not empty:", shown(err))
    expect_same(os.path.dirname(path), before)


def a_journal(steps=24):
    """A command with a journal of all three kinds, built by fixed chance: the same in every run."""
    command, chance = model.Command(), random.Random(20)
    kinds = [chances.some_commit, chances.some_commit, chances.some_gossip, chances.some_flush]
    for at in range(steps):
        command.call(*kinds[at % 4](chance, command.store))
    return command


def messages(count):
    """A command with a journal of so many empty messages, 20 bytes each: 1 + 20 x count bytes."""
    return model.Command(b"\x01" + b"".join(model.record("gossip", (at, at + 1, [])) for at in range(count)))


def lines_that_fill_a_journal():
    """Commits of 16 writes until hardly another has room, a gossip now and then to drop past values."""
    command, lines, stamp = model.Command(), [], 1
    writes = " ".join("%d=%d" % (slot, 2 ** 64 - 1 - slot) for slot in range(16))
    while len(command.journal) + 172 <= model.JOURNAL_ROOM:
        for line in ["commit %d %s" % (stamp, writes)] + ["gossip 0 %d" % stamp] * (stamp % 10 == 0):
            command.answer(line.encode())
            lines.append(line.encode())
        stamp += 1
    return lines, command


# ---- what a killed or stopped program leaves ----

def torn_tail(chance, command):
    """A proper beginning of the next record, as a power cut may leave it."""
    scout = command.copy()
    while len(scout.journal) == len(command.journal):
        scout.call(*chances.some_commit(chance, scout.store))
    more = scout.journal[len(command.journal):]
    return more[:chance.randrange(1, len(more))]


def agrees(partial, answer):
    return answer.startswith(partial.decode("latin-1"))


def survivors(path, command, steps, tail, out):
    """What a killed program leaves, judged: the command as of the file. Its answers are all promises."""
    *whole, partial = out.split(b"\n")
    data = contents(path)
    if not data.startswith(command.journal + tail):
        expect(tail in torn_files(path).values(), "the torn tail is neither in the journal nor beside it")
    if not whole:
        expect(agrees(partial, opened(path, model.DONE, len(command.journal))), "the first line is", shown(partial))
        expect(data in (command.journal, command.journal + tail), "killed while starting, the file changed")
        expect(not partial or data == command.journal, "the first line began before the tail was cut")
        return command
    answers = [line.decode("latin-1") for line in whole]
    expect(answers[0] == opened(path, model.DONE, len(command.journal)), "the first line is", shown(answers[0]))
    count = len(answers) - 1
    expect_lines(answers[1:], [answer for _, answer, _ in steps[:count]])
    for call, _, _ in steps[:count]:
        command.call(*call)
    expect(data[:len(command.journal)] == command.journal, "an acknowledged record is not in the file")
    beyond = data[len(command.journal):]
    flight = steps[count][2] if count < len(steps) else b""
    expect(flight.startswith(beyond), "beyond the acknowledged records stands", shown(beyond), "in flight was", shown(flight))
    if partial:
        expect(count < len(steps) and agrees(partial, steps[count][1]), "the last answer begins", shown(partial))
        expect(beyond == flight, "an answer began before its record was in the file")
    if flight and beyond == flight:
        command.call(*steps[count][0])
    # a version byte alone is a journal of one byte
    return command if command.journal else model.Command(data)


def expect_stopped(bench, path, before, lines, out, err):
    """A program that could not write: a word, and what it acknowledged is there, and no more than it had in hand."""
    answers = lines_in(out)
    expect(answers[:1] == [opened(path, model.DONE, len(before.journal))], "the first line is", shown(answers[:1]))
    count = len(answers) - 1
    expect(count < len(lines), "every change was acknowledged, room or not")
    after = before.copy()
    expect_lines(answers[1:], [after.answer(line) for line in lines[:count]])
    expect(err, "no word on standard error")
    acknowledged = after.journal
    after.answer(lines[count])
    data = contents(path)
    expect(data.startswith(acknowledged), "an acknowledged record is not in the file")
    expect(after.journal.startswith(data), "beyond the acknowledged records stands", shown(data[len(acknowledged):]))
    expect_unlocked(path)
    return data


def expect_whole_around_fresh(bench, path, old, before, line, program=None):
    """The old journal is whole under one of its names, and the new one begins with the line that followed."""
    new = model.Command()
    new.answer(line)
    if os.path.exists(old):
        expect(contents(old) == before.journal, "after fresh the old journal is not whole")
        expect(new.journal.startswith(contents(path)), "after fresh the new journal is", shown(contents(path)))
    else:
        expect(contents(path) == before.journal, "before fresh the journal is not whole")
    expect_held(bench, path, model.Command(contents(path)), program)


# ---- side by side ----

def side_by_side(function, cases, count=4):
    """Calls a function with each case, some of them at a time: for programs that wait. The first failure is raised."""
    with ThreadPoolExecutor(count) as pool:
        return list(pool.map(lambda case: function(*case), cases))


# ---- other processes ----

def dead_number():
    """The number of a process that has ended and was waited for."""
    process = subprocess.Popen(["true"])
    process.wait()
    return process.pid


def started(number):
    """A process's start time: field 22 of its stat, counted behind its name, which may hold anything."""
    return int(contents("/proc/%d/stat" % number).rpartition(b")")[2].split()[19])


def boot():
    """The name of this run of the machine."""
    return contents("/proc/sys/kernel/random/boot_id").strip()


def holder(number):
    """What the lock of a process holds."""
    return b"%d %d %s\n" % (number, started(number), boot())


def opened_among(processes):
    """How many of the programs opened; each has until then neither been told to end nor been fed."""
    firsts = [first_line(process) for process in processes]
    for process in processes:
        process.stdin.close()
    for process in processes:
        process.stdout.read()
        process.stderr.read()
        process.stdout.close()
        process.stderr.close()
        process.wait()
    return sum(line.startswith(b"opened") for line in firsts)


def first_line(process):
    ready, _, _ = select.select([process.stdout], [], [], PATIENCE)
    expect(ready, "a program neither opened nor ended")
    return process.stdout.readline()
