# Tests of --records: a journal shown record by record, only read.

import os

import chance as chances
import model
from bench import (
    Skipped, a_journal, expect_lines, expect_same, lines_in, lines_that_fill_a_journal, messages, picture, put_early, test)
from on_files import as_nobody, bodies, folder_for
from running import Failed, contents, expect, put, shown


def expect_records(bench, path, data, program=None):
    """Shows a file of these bytes: the model's lines, no word, and nothing is changed."""
    put_early(path, data)
    before = picture(os.path.dirname(path))
    out, err = (program or bench.program).run(b"commit 18446744073709551615 0=1\n", "--records", path)
    expect_lines(lines_in(out), model.records(data))
    expect(err == b"", "standard error says", shown(err))
    expect_same(os.path.dirname(path), before)
    return lines_in(out)


@test
def records_of_the_night(bench):
    """The form, written out by hand."""
    data = b"\x01" + b"".join(model.record(*call) for call in (
        ("commit", (100, [(0, 7)])), ("gossip", (0, 110, [105])), ("flush", (0,)), ("gossip", (110, 200, [])),
        ("commit", (2 ** 64 - 1, [(511, 2 ** 64 - 1), (16, 0)]))))
    lines = ["commit 100 0=7  # 1 22", "gossip 0 110 105  # 23 28", "flush 0  # 51 4", "gossip 110 200  # 55 20",
             "commit 18446744073709551615 511=18446744073709551615 16=0  # 75 32"]
    ends = ((data, "# 107 end"), (data + b"\x00", "# 107 torn, 1 bytes"), (data + b"\x00\x14" + bytes(19), "# 107 torn, 21 bytes"),
            (data + b"\x00\xab", "# 16 107 Malformed"), (data + b"\x00\x01", "# 16 107 Malformed"),
            (data + b"\x00\x02\x03\x20", "# 16 107 Malformed"), (data + b"\x00\x02\x03\x05", "# 17 107 Contradiction"),
            (data + data[1:23], "# 17 107 Contradiction"), (data + data[1:], "# 17 107 Contradiction"))
    for bytes_, end in ends:
        got = expect_records(bench, bench.path(), bytes_)
        expect_lines(got, lines + [end])
    data = bytearray(b"\x01" + model.record("commit", (1, [(0, 1)])) + model.record("commit", (2, [(0, 2)])) * 6)
    data[46] = 0x94
    expect_lines(expect_records(bench, bench.path(), bytes(data)),
                 ["commit 1 0=1  # 1 22", "commit 2 0=2  # 23 22", "# 45 torn, 110 bytes"])
    for data, end in ((b"", "# 0 end"), (b"\x01", "# 1 end"), (b"\x07" + bytes(9), "# 15 7 Version"), (b"\x00", "# 15 0 Version"),
                      (b"\n", "# 15 10 Version"), (b"\x01" + bytes(65535), "# 3 0 Shape"), (b"\x01\x00", "# 1 torn, 1 bytes"),
                      (b"\x02" + bytes(70000), "# 3 0 Shape"), (bytes(200000), "# 3 0 Shape")):
        expect_lines(expect_records(bench, bench.path(), data), [end])


@test
def records_of_chance_journals(bench):
    """Their lines, typed, write the same journal, byte for byte."""
    for turn in range(4):
        command = model.Command()
        chances.plan(bench.chance, command, 40 + 90 * turn)
        path, again = bench.quick(), bench.quick("again%d" % turn)
        lines = expect_records(bench, path, command.journal)
        expect(len(lines) == 1 + len(list(bodies(command.journal))), "a record is not shown")
        out, err = bench.program.run("".join(line + "\n" for line in lines).encode(), again)
        expect(all(answer.startswith("0 ") for answer in lines_in(out)[1:]) and err == b"", "answers", shown(out), shown(err))
        expect(contents(again) == command.journal, "the lines write another journal")


@test
def records_of_a_full_journal(bench):
    lines, command = lines_that_fill_a_journal()
    shows = expect_records(bench, bench.path(), command.journal)
    expect_lines([line.split("  #")[0] for line in shows[:-1]], [line.decode() for line in lines])
    expect_records(bench, bench.path(), messages(3276).journal)
    for length in (65534, 65535, 65536):
        expect_records(bench, bench.path(), (command.journal + b"\x00\xaa" + bytes(300))[:length])


@test
def records_of_every_cut(bench):
    whole = a_journal(16).journal
    for length in range(len(whole) + 1):
        try:
            expect_records(bench, bench.quick(), whole[:length], bench.bare)
        except Failed as why:
            raise Failed("cut at %d:" % length, why)


@test
def records_of_every_changed_byte(bench):
    whole, seen = a_journal(16).journal, {}
    for at in range(len(whole)):
        for mask in (1, bench.chance.randrange(2, 256)):
            data = whole[:at] + bytes([whole[at] ^ mask]) + whole[at + 1:]
            try:
                last = expect_records(bench, bench.quick(), data, bench.bare)[-1]
            except Failed as why:
                raise Failed("byte %d xor %d:" % (at, mask), why)
            kind = last.split()[-1]
            seen[kind] = seen.get(kind, 0) + 1
    bench.tell(", ".join("%d x %s" % (seen[kind], kind) for kind in sorted(seen)))
    expect(set(seen) == {"end", "bytes", "Version", "Malformed", "Contradiction"}, "not every end was met", seen)


@test
def records_while_a_program_has_the_journal(bench):
    """No lock is needed, and none is taken; what is acknowledged is shown."""
    path, command = bench.path(), model.Command()
    talk = bench.program.talk(path)
    talk.line()
    for call, answer, _ in chances.plan(bench.chance, command, 20):
        expect(talk.ask(model.line_of(*call)) == answer, "not served")
    lock = contents(path + ".lock")
    out, err = bench.program.run(b"", "--records", path)
    expect_lines(lines_in(out), model.records(command.journal))
    expect(err == b"" and contents(path + ".lock") == lock, "the lock was touched", shown(err))
    expect(sorted(os.listdir(bench.folder)) == ["journal", "journal.lock"], "the folder has", os.listdir(bench.folder))
    more = "commit %d 0=1" % (max(command.store.last, command.store.horizon) + 1)
    expect(talk.ask(more) == command.answer(more.encode()), "the first does not go on")
    talk.end()
    expect(contents(path) == command.journal, "the journal's bytes differ")


@test
def records_of_a_file_that_may_only_be_read(bench):
    options = as_nobody(bench)
    folder, path = folder_for(bench, "closed")
    os.chmod(path, 0o444)
    os.chmod(folder, 0o555)
    before = picture(folder)
    out, err = bench.program.run(b"", "--records", path, **options)
    expect_lines(lines_in(out), model.records(a_journal(8).journal))
    expect(err == b"", "standard error says", shown(err))
    expect_same(folder, before)
    os.chmod(path, 0o222)
    out, err = bench.program.run(b"", "--records", path, **options)
    expect(out == b"" and err == b"%s: Permission denied\n" % path.encode(), "said:", shown(out), shown(err))


@test
def records_of_what_is_no_file(bench):
    os.mkdir(bench.path("folder"))
    os.symlink("nowhere", bench.path("link"))
    before = picture(bench.folder)
    for name in ("folder", "missing", "missing/journal", "link", "folder/"):
        out, err = bench.program.run(b"", "--records", bench.path(name))
        expect(out == b"", shown(name), "shows", shown(out))
        expect(err.startswith(bench.path(name).encode() + b": ") and err.count(b"\n") == 1, shown(name), "is answered", shown(err))
        expect_same(bench.folder, before)


@test
def records_that_cannot_be_written(bench):
    if not os.path.exists("/dev/full"):
        raise Skipped("there is no full device here")
    put(bench.path(), a_journal(8).journal)
    with open("/dev/full", "wb") as full:
        _, err = bench.program.run(b"", "--records", bench.path(), stdout=full)
    expect(err, "no word on standard error")


@test
def records_of_odd_names(bench):
    for name in ("a name with blanks", "caf\u00e9", "x" * 255, "quote'\"$HOME"):
        expect_records(bench, bench.path(name), a_journal(8).journal)
    put(bench.path("near"), b"\x01")
    os.symlink("near", bench.path("link"))
    for name in ("near", "./near", "link"):
        out, err = bench.program.run(b"", "--records", name, cwd=bench.folder)
        expect((out, err) == (b"# 1 end\n", b""), shown(name), "shows", shown(out), shown(err))


@test
def records_with_a_lock_left_behind(bench):
    """Of the dead or rubbish: it is neither taken over nor mentioned."""
    path = bench.path()
    put(path + ".lock", b"rubbish\n")
    expect_records(bench, path, a_journal(8).journal + b"\x00")
