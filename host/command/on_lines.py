# Tests of lines and their answers: files of them, random ones, long ones, rubbish, the largest numbers.

import os
import time

import chance as chances
import model
from bench import TESTS, a_journal, answered, expect_lines, expect_served, lines_in, lines_that_fill_a_journal, test
from running import Failed, contents, expect, shown

LINES = os.path.join(os.path.dirname(os.path.abspath(__file__)), "lines")

# ---- files of lines ----

def call_files():
    return sorted(name[:-len(".calls.txt")] for name in os.listdir(LINES) if name.endswith(".calls.txt"))


def file_of_lines(name):
    def run(bench):
        calls = contents(os.path.join(LINES, name + ".calls.txt"))
        answers = lines_in(contents(os.path.join(LINES, name + ".answers.txt")))
        asked = [line for line in calls.split(b"\n") if line.split(b"#")[0].strip()]
        out, err = bench.program.run(calls)
        expect_lines(lines_in(out), answers, asked)
        expect(err == b"", "standard error is not empty:", shown(err))
    return run


def file_of_lines_on_a_journal(name):
    def run(bench):
        calls = contents(os.path.join(LINES, name + ".calls.txt")).split(b"\n")[:-1]
        expect_served(bench, calls, bench.path())
        expect_served(bench, [b"standing"], bench.path())
    return run


for each in call_files():
    TESTS.append(("lines of " + each, file_of_lines(each)))
for each in ("refusals", "pending", "past", "snapshots", "archive", "quit", "exit"):
    TESTS.append(("lines of %s on a journal" % each, file_of_lines_on_a_journal(each)))


@test
def crlf_lines(bench):
    for name in ("night", "known", "quit"):
        calls = contents(os.path.join(LINES, name + ".calls.txt")).replace(b"\n", b"\r\n")
        out, _ = bench.program.run(calls)
        expect_lines(lines_in(out), lines_in(contents(os.path.join(LINES, name + ".answers.txt"))))


def last_lines(command):
    """A commit over several pages and flushes of some of them that take the room there is to its last byte."""
    room, stamp = model.JOURNAL_ROOM - len(command.journal), command.store.last + 1
    for count in range(1, model.MOST_WRITES + 1):
        flushes, rest = divmod(room - 12 - 10 * count, 4)
        if rest == 0 and 0 <= flushes < count:
            commit = b"commit %d " % stamp + b" ".join(b"%d=5" % (16 * page) for page in range(1, count + 1))
            return [commit] + [b"flush %d" % page for page in range(1, flushes + 1)]
    raise Failed("the test's own arithmetic")


@test
def a_journal_filled_to_its_last_byte(bench):
    lines, command = lines_that_fill_a_journal()
    stamp = command.store.last + 1
    too_big = b"commit %d " % stamp + b" ".join(b"%d=1" % slot for slot in range(16))
    refused = [b"flush 0", b"commit %d 0=1" % (stamp + 1), b"gossip 0 %d" % (stamp + 99)]
    nothing = [b"flush 31", b"gossip 0 5"]
    lines += [too_big] + last_lines(command) + refused + nothing + [b"standing", b"now 0"]
    answers = answered(model.Command(), lines)[0]
    expect(answers[-7:-2] == ["12 65539 No journal room", "12 65557 No journal room", "12 65555 No journal room",
                              "1 65535 Nothing", "1 65535 Nothing"], "the test's own model says", answers[-7:-2])
    expect_served(bench, lines, bench.path())
    expect_served(bench, [too_big] + refused + nothing + [b"standing", b"now 0"], bench.path())
    expect_served(bench, lines)


# ---- random lines against the model ----

def random_lines(chance, command, count, forbidden):
    lines = []
    while len(lines) < count:
        line = chances.some_line(chance, command.store)
        if not any(word in line for word in forbidden):
            command.answer(line)
            lines.append(line)
    return lines


@test
def random_lines_in_memory(bench):
    for _ in range(4):
        scout = model.Command()
        lines = random_lines(bench.chance, scout, 1500, [b"help"])
        expect_served(bench, lines)


@test
def random_lines_on_a_journal(bench):
    for _ in range(4):
        scout = model.Command(contents(bench.path()))
        lines = random_lines(bench.chance, scout, 300, [b"help", b"fresh", b"cut"])
        expect_served(bench, lines, bench.path())


@test
def random_cuts_in_memory(bench):
    scout, lines = model.Command(), []
    for _ in range(300):
        line = chances.some_line(bench.chance, scout.store)
        if bench.chance.random() < 0.1:
            line = b"cut %d" % bench.chance.randint(0, len(scout.journal))
        if b"help" not in line:
            scout.answer(line)
            lines.append(line)
    expect_served(bench, lines)


# ---- long lines and rubbish ----

def long_lines():
    """Lines near and over the limit, with a call after each; the model knows every answer."""
    limit = model.LONGEST_LINE
    pad = lambda line, length: b" " * (length - len(line)) + line
    return [
        b"9" * limit, b"now " + b"9" * (limit - 4), b"commit 5 0=" + b"8" * (limit - 11), b"now " + b"0" * (limit - 5) + b"1",
        b"gossip 0 " + b"0" * 500000 + b"18446744073709551616", pad(b"now 0", limit), pad(b"now 0", limit - 1),
        b"now 0" + b" " * (limit - 5), b"now 0 #" + b"x" * (limit - 7), b"#" * limit, b" " * limit, b"x " * (limit // 2),
        b"now " + b"0 " * ((limit - 4) // 2), b"commit 5 " + b"0=1 " * 100000,
        b"commit 5 " + b" ".join(b"%d=1" % at for at in range(100000)),
        b"gossip 0 900000 " + b" ".join(b"%d" % at for at in range(1, 100000)), b"commit 5 " + b"0=1 " * 100000 + b"x",
        b"commit 5 " + b"=" * 100000, b"commit 6 0=1" + b"=" * 1000,
        # over the limit
        pad(b"now 0", limit + 1), b"x" * (limit + 1), b" " * (limit + 1), b"#" * (limit + 1), b"commit 5 0=1" + b" " * limit,
        b"commit 5 0=" + b"0" * (2 * limit) + b"1", b"9" * (3 * limit + 17),
    ]


@test
def lines_of_a_megabyte(bench):
    lines = []
    for at, line in enumerate(long_lines()):
        lines += [line, b"now 0", b"standing", b"commit %d 0=%d" % (100 + at, at)]
    expect_served(bench, lines, bench.path())


@test
def a_megabyte_without_its_end(bench):
    for length in (model.LONGEST_LINE, model.LONGEST_LINE + 1, 3 * model.LONGEST_LINE):
        out, _ = bench.program.run(b"commit 5 0=1\n\n" + b"commit 6 0=2" + b" " * (length - 12), bench.path("journal%d" % length))
        got = lines_in(out)
        last = "? line 3 has no end" if length == model.LONGEST_LINE else "? line 3 is longer than 1048576 bytes"
        expect(got[1:] == ["0 23 Done", last], "answers", shown(got))
        expect(len(contents(bench.path("journal%d" % length))) == 23, "a line without its end changed something")


@test
def binary_rubbish(bench):
    lines = []
    for turn in range(200):
        lines += [chances.rubbish(bench.chance, bench.chance.choice([1, 3, 10, 100, 5000])), b"now 0"]
    lines += [bytes([byte]) for byte in range(256) if byte != 10]
    lines += [b"now" + bytes([byte]) + b"0" for byte in range(256) if byte != 10]
    lines += [b"now 1" + bytes([byte]) for byte in range(256) if byte != 10]
    lines += [b"commit 9 1" + bytes([byte]) + b"1" for byte in range(256) if byte not in b"\n="]
    lines += [b"now 0\x00", b"now \x000", b"now 1\x002", b"\x00now 0",
              b"commit 5 0\x00=1", b"commit 5 0=\x001", b"commit 5 0=1\x002", b"commit \xff\xfe 0=1", b"\xef\xbb\xbfnow 0", b"now \xd9\xa0", b"\xc0\x80", b"\x1b[A"]
    lines = [line for line in lines if b"#" not in line or line == b"#"] + [b"standing", b"commit 5 0=1", b"now 0"]
    expect_served(bench, lines, bench.path())


@test
def a_journal_given_as_lines(bench):
    """The journal's own bytes fed to standard input: rubbish, but nothing may break."""
    data = a_journal().journal
    lines = (data * 20).split(b"\n")
    expect_served(bench, lines + [b"standing"], bench.path())


@test
def lines_in_pieces(bench):
    talk = bench.program.talk()
    for piece in ("com", "mit 1", "00 0=", "7\nno", "w 0\n", "", "\n"):
        talk.send(piece)
        time.sleep(0.01)
    expect(talk.line() == "0 23 Done", "a line in pieces is not served")
    expect(talk.line() == "0 0 Done 7" + " 0" * 15, "a second line in pieces is not served")
    out, err = talk.end()
    expect(out == b"" and err == b"", "more was said:", shown(out), shown(err))


# ---- the largest numbers on a journal ----

@test
def the_largest_numbers_kept(bench):
    most = 2 ** 64 - 1
    lines = [b"commit %d 0=%d 511=%d" % (most - 1, most, most), b"commit %d 0=%d 1=%d" % (most, most - 1, most),
             b"gossip 0 %d %d %d" % (most, most - 1, most), b"flush 0", b"flush 31", b"now 18446744073709551616"]
    expect_served(bench, lines, bench.path())
    lines = [b"read %d 0" % (most - 1), b"read %d 0" % most, b"read %d 31" % most, b"now 0", b"now 31", b"standing",
             b"commit %d 0=1" % most, b"commit 00000000000000000000000%d 0=1" % most, b"gossip 0 %d %d" % (most, most)]
    command = expect_served(bench, lines, bench.path())
    shows = answered(command, [lines[0], lines[1]])[0]
    expect(shows[0].split()[3] == str(most) and shows[1].split()[3:5] == [str(most - 1), str(most)], "the test's own model")
