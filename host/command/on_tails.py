# Tests of what lies behind a journal's last whole record: kept beside it, byte for byte, before it is cut off.

import os

import model
from bench import (
    a_journal, clear, expect_held, expect_lines, expect_same, expect_unlocked, lines_in, messages, opened, picture, put_early,
    test, torn_tail, torn_word)
from on_files import expect_opened_as_judged, limited_to
from running import Failed, contents, expect, put, shown


@test
def a_length_that_became_larger(bench):
    """Seven commits of one object; one byte of a length is changed, and the records behind it are a tail. None of it is lost."""
    command = model.Command()
    for stamp in range(1, 8):
        command.call("commit", (stamp, [(0, stamp)]))
    path, data = bench.path(), bytearray(command.journal)
    expect(len(data) == 155 and data[45:47] == b"\x00\x14", "the test's own journal")
    data[46] = 0x94
    put(path, bytes(data))
    out, err = bench.program.run(b"now 0\n", path)
    expect_lines(lines_in(out), [opened(path, 0, 45), "0 0 Done 2" + " 0" * 15])
    expect(contents(path) == bytes(data[:45]), "the journal has", len(contents(path)), "bytes")
    expect(contents(path + ".torn-1") == bytes(data[45:]), "kept is", shown(contents(path + ".torn-1")))
    wanted = "%s: 110 bytes behind the last whole record are kept in %s.torn-1\n" % (path, path)
    expect(err == wanted.encode(), "standard error says", shown(err))
    expect(sorted(os.listdir(bench.folder)) == ["journal", "journal.torn-1"], "the folder has", os.listdir(bench.folder))


@test
def tails_of_one_journal_after_another(bench):
    """Each has the next free number, and those that are kept stay as they are."""
    path, command = bench.path(), a_journal(8)
    for turn in range(1, 13):
        tail = torn_tail(bench.chance, command)
        put(path, command.journal + tail)
        words = expect_held(bench, path, command, None if turn < 4 else bench.bare)
        expect(not words, "standard error says", words)
        expect(contents("%s.torn-%d" % (path, turn)) == tail, "tail", turn, "is not kept")
    os.remove(path + ".torn-3")
    put(path, command.journal + b"\x00")
    expect_held(bench, path, command)
    expect(contents(path + ".torn-3") == b"\x00", "the first free number is not taken")


@test
def names_of_tails_that_are_taken(bench):
    """By a file, a folder, a link that leads nowhere, an empty file: none of them is touched."""
    path, command = bench.path(), a_journal(8)
    put_early(path + ".torn-1", b"dear")
    os.mkdir(path + ".torn-2")
    os.symlink("nowhere", path + ".torn-3")
    put_early(path + ".torn-4", b"")
    os.symlink("journal.torn-1", path + ".torn-5")
    os.symlink(".", path + ".torn-6")
    put_early(path + ".torn-8", b"later")
    put(path, command.journal)
    before = picture(bench.folder)
    put(path, command.journal + b"\x00\x14\x01")
    out, err = bench.program.run(b"", path)
    expect_lines(lines_in(out), [opened(path, 0, len(command.journal))])
    expect(err.decode() == torn_word(path, 3, 7) + "\n", "standard error says", shown(err))
    expect(contents(path) == command.journal and contents(path + ".torn-7") == b"\x00\x14\x01", "the tail is not kept")
    os.remove(path + ".torn-7")
    os.utime(path, ns=(before["journal"][1], before["journal"][1]))
    expect_same(bench.folder, before)
    expect(not os.path.lexists(bench.path("nowhere")), "the link was followed")


@test
def nothing_behind_the_last_record(bench):
    """No file, no word, and the journal is not written."""
    for data in (b"", b"\x01", a_journal(8).journal):
        put_early(bench.path(), data)
        before = picture(bench.folder)
        out, err = bench.program.run(b"standing\n", bench.path())
        expect(lines_in(out)[:1] == [opened(bench.path(), 0, len(data))] and err == b"", "said:", shown(out), shown(err))
        expect_same(bench.folder, before)


@test
def tails_of_all_lengths(bench):
    """One byte, as many as a record can lack, behind a version byte, and up to the journal's last byte."""
    small, full, version = a_journal(8), messages(3276), model.Command(b"\x01")
    expect(len(full.journal) == 65521, "the test's own journal has", len(full.journal), "bytes")
    for command, tail in ((version, b"\x00"), (version, b"\x00\xaa" + b"\xff" * 169), (small, b"\x00"), (small, b"\xff"),
                          (small, b"\x00\xaa" + bytes(169)), (full, b"\x00\x12" + b"\n" * 12), (full, b"\x00")):
        clear(bench.path())
        put(bench.path(), command.journal + tail)
        expect_held(bench, bench.path(), command, bench.bare)


@test
def a_changed_length_loses_nothing(bench):
    """Each record's length in its turn made the largest that is allowed: what is there and what is kept make the whole file."""
    command = a_journal(40)
    _, _, _, taken = model.walk(command.journal)
    for place, length, _ in taken:
        data = command.journal[:place] + b"\x00\xaa" + command.journal[place + 2:]
        expect_opened_as_judged(bench, bench.quick(), data, bench.bare)
        expect(contents(bench.quick()) + contents(bench.quick("journal.torn-1")) == data, "bytes are lost")


def expect_uncut(bench, path, data, out, err, what):
    """A tail that could not be kept: the journal is as it was, no line, a word, no lock; and then it can be opened."""
    expect(out == b"", what, "and it is served:", shown(out))
    expect(err, what, "without a word on standard error")
    expect(contents(path) == data, what, "and the journal is cut")
    expect_unlocked(path)
    expect_held(bench, path, model.Command(data), bench.bare)


@test
def no_room_for_a_tail(bench):
    """The file for it may not grow as long as it is."""
    command, path = a_journal(8), bench.path()
    tail = b"\x00\xaa" + bytes(range(160))
    for size in (len(tail) - 1, 100, 80):
        clear(path)
        put(path, command.journal + tail)
        out, err = bench.bare.run(b"standing\ncommit 18446744073709551615 0=1\n", path, preexec_fn=limited_to(size))
        expect_uncut(bench, path, command.journal + tail, out, err, "there is no room for the tail")
    clear(path)
    put(path, command.journal + tail)
    out, err = bench.bare.run(b"", path, preexec_fn=limited_to(len(tail)))
    expect(lines_in(out) == [opened(path, 0, len(command.journal))], "room for the tail and no more:", shown(out), shown(err))


@test
def no_name_for_a_tail(bench):
    """A journal's name that is just short enough for its lock."""
    command = a_journal(8)
    for length in (249, 250):
        path = bench.path("n" * length)
        data = command.journal + b"\x00\x14"
        put(path, data)
        before = picture(bench.folder)
        out, err = bench.program.run(b"standing\ncommit 18446744073709551615 0=1\n", path)
        expect(out == b"", "no name for the tail and it is served:", shown(out))
        expect(err.startswith(path.encode()), "no name for the tail, and standard error says", shown(err))
        expect_same(bench.folder, before)
        put(path, command.journal)
        expect_held(bench, path, command)


@test
def a_tail_by_chance(bench):
    """Rubbish behind a journal: kept where it looks like a record's beginning, else the journal is refused."""
    command, seen = a_journal(8), {}
    for turn in range(60):
        tail = bytes([0, bench.chance.randrange(200)]) + bench.chance.randbytes(bench.chance.randrange(180))
        data = command.journal + (tail if bench.chance.random() < 0.8 else bench.chance.randbytes(bench.chance.randrange(1, 9)))
        try:
            code = expect_opened_as_judged(bench, bench.quick(), data, bench.bare)
        except Failed as why:
            raise Failed("behind the journal", shown(data[len(command.journal):]), why)
        seen[code] = seen.get(code, 0) + 1
    expect(seen.get(model.DONE) and seen.get(model.MALFORMED), "not every code was met", seen)
