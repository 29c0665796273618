# Tests of the journal's file: cut, changed, without room, not to be written, renewed, written by a stranger.

import os
import resource
import signal
import subprocess

import chance as chances
import model
from bench import (
    Skipped, a_journal, clear, expect_held, expect_lines, expect_refused, expect_same, expect_served, expect_stopped,
    expect_unlocked, lines_in, lines_that_fill_a_journal, opened, picture, test)
from running import Failed, contents, expect, put, shown

NOBODY = 65534  # the user who owns nothing

# ---- cut and changed journals ----

@test
def every_cut_of_a_journal(bench):
    whole = a_journal().journal
    kinds = {model.decode(body)[0] for body in bodies(whole)}
    expect(len(whole) > 300 and kinds == set(model.CHANGES), "the test's own journal is too small")
    for length in range(len(whole) + 1):
        clear(bench.quick())
        put(bench.quick(), whole[:length])
        wanted = model.Command(whole[:length])
        try:
            words = expect_held(bench, bench.quick(), wanted, bench.bare)
            expect(not words, "standard error says", words)
        except Failed as why:
            raise Failed("cut at %d:" % length, why)


def bodies(data):
    place = 1
    while place < len(data):
        length = int.from_bytes(data[place:place + 2], "big")
        yield data[place + 2:place + 2 + length]
        place += 2 + length


def expect_opened_as_judged(bench, path, data, program=None):
    """Opens any bytes and holds what happens against the model's restart. Gives the code."""
    clear(path)
    put(path, data)
    wanted = model.Command(data)
    if wanted.code == model.DONE:
        expect_held(bench, path, wanted, program)
    else:
        expect_refused(bench, path, wanted.code, wanted.place, program)
    return wanted.code


@test
def every_byte_of_a_journal_changed(bench):
    whole, seen = a_journal(16).journal, {}
    for at in range(len(whole)):
        for mask in (1, 128, bench.chance.randrange(1, 256)):
            data = whole[:at] + bytes([whole[at] ^ mask]) + whole[at + 1:]
            try:
                code = expect_opened_as_judged(bench, bench.quick(), data, bench.bare)
            except Failed as why:
                raise Failed("byte %d xor %d:" % (at, mask), why)
            seen[code] = seen.get(code, 0) + 1
    bench.tell("codes " + ", ".join("%d x %d" % (seen[code], code) for code in sorted(seen)))
    expect(set(seen) == {model.DONE, model.VERSION, model.MALFORMED, model.CONTRADICTION}, "not every code was met", seen)


@test
def journals_that_no_calls_wrote(bench):
    commit = lambda *arguments: model.record("commit", arguments)
    good = b"\x01" + commit(5, [(0, 1)])
    cases = {
        b"\x00": (15, 0), b"\x02": (15, 2), b"\xff" + good[1:]: (15, 255), b"\n": (15, 10),
        b"\x01\x00": (0, 1), b"\x01\xff": (0, 1), b"\x01\x00\x00": (16, 1), b"\x01\x00\x01": (16, 1),
        b"\x01\x00\xab": (16, 1), b"\x01\x00\xaa": (0, 1), b"\x01\x01\x00": (16, 1), b"\x01\x00\x02\x03": (0, 1),
        b"\x01\x00\x02\x03\x00": (17, 1), b"\x01\x00\x02\x03\x20": (16, 1), b"\x01\x00\x02\x04\x00": (16, 1),
        b"\x01\x00\x02\x00\x00": (16, 1), good + good[1:]: (17, 23), good + b"\x00\x00": (16, 23),
        b"\x01" + commit(0, [(0, 1)]): (17, 1), b"\x01" + commit(5, [(512, 1)]): (16, 1),
        b"\x01" + commit(5, [(7, 1), (7, 1)]): (16, 1), b"\x01" + commit(5, []): (16, 1),
        b"\x01" + model.record("gossip", (5, 4, [])): (16, 1), b"\x01" + model.record("gossip", (5, 9, [])): (17, 1),
        b"\x01" + model.record("gossip", (0, 0, [])): (17, 1), b"\x01" + model.record("gossip", (0, 9, [9, 9])): (16, 1),
    }
    for data, (code, number) in cases.items():
        judged = model.restart(data)[:2]
        expect(judged == (code, number), "the test's own model says", judged, "for", data)
        try:
            expect_opened_as_judged(bench, bench.path(), data)
        except Failed as why:
            raise Failed(shown(data), why)


@test
def journals_as_long_as_can_be_and_longer(bench):
    _, command = lines_that_fill_a_journal()
    torn = command.journal + b"\x00\xaa"  # and so many bytes of a record that is not all there
    for length in (65534, 65535, 65536, 65537, 70000, 131070, 200000):
        code = expect_opened_as_judged(bench, bench.path(), (torn + bytes(200000))[:length])
        expect(code == (model.DONE if length <= 65535 else model.SHAPE), "the test's own model says", code, "for", length)


# ---- no room on the disk ----

def limited_to(size):
    def limit():
        signal.signal(signal.SIGXFSZ, signal.SIG_IGN)
        resource.setrlimit(resource.RLIMIT_FSIZE, (size, size))
    return limit


@test
def a_file_that_may_not_grow(bench):
    before = a_journal(12)
    for more in list(range(0, 50)) + [171, 172, 173, 200]:
        put(bench.path(), before.journal)
        stamp = max(before.store.last, before.store.horizon)
        lines = [b"commit %d 3=%d" % (stamp + 1 + turn, turn) for turn in range(12)]
        out, err = bench.bare.run(b"\n".join(lines) + b"\n", bench.path(),
                                  preexec_fn=limited_to(len(before.journal) + more))
        data = expect_stopped(bench, bench.path(), before, lines, out, err)
        expect_held(bench, bench.path(), model.Command(data), bench.bare)


@test
def a_first_change_without_room(bench):
    """The lock has some 50 bytes: with room for fewer not even that is made."""
    writes = [(slot, 1) for slot in range(model.MOST_WRITES)]
    line = model.line_of("commit", (5, writes)).encode()
    whole = b"\x01" + model.record("commit", (5, writes))
    for size in [0, 1, 20, 40] + list(range(70, len(whole), 6)) + [len(whole) - 1]:
        path = bench.path("journal%d" % size)
        out, err = bench.bare.run(line + b"\nnow 0\n", path, preexec_fn=limited_to(size))
        expect(err, "no word on standard error with room for", size)
        expect(out == (opened(path, 0, 0) + "\n").encode() * (size >= 70), "with room for", size, "it says", shown(out), shown(err))
        expect(contents(path) == whole[:len(contents(path))], "other bytes")
        expect_unlocked(path)
        expect_held(bench, path, model.Command(contents(path)), bench.bare)


def mounted(folder, size):
    os.mkdir(folder)
    done = subprocess.run(["mount", "-t", "tmpfs", "-o", "size=%d" % size, "none", folder], capture_output=True)
    if done.returncode != 0:
        raise Skipped("mounting a small disk is not permitted here")


@test
def a_full_disk(bench):
    folder = bench.path("disk")
    try:
        mounted(folder, 4 * os.sysconf("SC_PAGE_SIZE"))
    except FileNotFoundError:
        raise Skipped("there is no mount command here")
    try:
        full_disk(bench, os.path.join(folder, "journal"))
    finally:
        subprocess.run(["umount", folder], capture_output=True)


def full_disk(bench, path):
    before, writes = model.Command(), b" ".join(b"%d=1" % slot for slot in range(16))
    lines = [b"commit %d %s" % (turn, writes) for turn in range(1, 13)]
    lines += [b"gossip 0 %d" % turn if turn % 12 == 0 else b"commit %d %s" % (turn, writes) for turn in range(13, 150)]
    before = model.Command()
    out, err = bench.program.run(b"\n".join(lines) + b"\n", path)
    data = expect_stopped(bench, path, before, lines, out, err)
    elsewhere = bench.path("copy")
    put(elsewhere, data)
    expect_held(bench, elsewhere, model.Command(data))
    expect_held(bench, path, model.Command(data))


# ---- files and folders that may not be written ----

def as_nobody(bench):
    """Options that start the program as a user who owns nothing; root reads and writes whatever the modes say."""
    if os.geteuid() != 0:
        return {}
    options = dict(user=NOBODY, group=NOBODY, extra_groups=[])
    try:
        out, _ = bench.program.run(b"standing\n", **options)
    except OSError:
        raise Skipped("the program cannot be run by another user here")
    if out != b"0 0 Done 0 0 0 0 0\n":
        raise Skipped("the program cannot be run by another user here")
    return options


def folder_for(bench, name):
    """A folder with a journal, both the unprivileged user's own."""
    folder = bench.path(name)
    os.mkdir(folder)
    path = os.path.join(folder, "journal")
    put(path, a_journal(8).journal)
    if os.geteuid() == 0:
        os.chown(folder, NOBODY, NOBODY)
        os.chown(path, NOBODY, NOBODY)
    return folder, path


def expect_no_way_in(bench, path, options, what):
    out, err = bench.program.run(b"standing\ncommit 18446744073709551615 0=1\nfresh\n", path, **options)
    expect(err, what, "is refused without a word; standard output:", shown(out))
    expect(out == b"", what, "is served:", shown(out))
    expect(not os.path.exists(path + ".old"), what, "was renamed")
    return err


@test
def a_file_that_may_not_be_written(bench):
    options = as_nobody(bench)
    for mode in (0o444, 0o222, 0o000):
        _, path = folder_for(bench, "mode%o" % mode)
        os.chmod(path, mode)
        expect_no_way_in(bench, path, options, "a file of mode %o" % mode)
        expect_unlocked(path)
        os.chmod(path, 0o644)
        expect_held(bench, path, a_journal(8))


@test
def a_folder_that_may_not_be_written(bench):
    options = as_nobody(bench)
    folder, path = folder_for(bench, "closed")
    os.chmod(folder, 0o555)
    for name, what in ((path, "a folder that may not be written"),
                       (os.path.join(folder, "other"), "a new file in a folder that may not be written")):
        err = expect_no_way_in(bench, name, options, what)
        wanted = "%s: no lock can be made: %s.lock: Permission denied\n" % (name, name)
        expect(err == wanted.encode(), "standard error says", shown(err), "and should say", wanted)
    expect(os.listdir(folder) == ["journal"], "the folder has", os.listdir(folder))
    os.chmod(folder, 0o755)
    expect_held(bench, path, a_journal(8))


@test
def a_path_that_is_no_file(bench):
    """What is wrong is told by its name, nothing is made, and no lock is left."""
    os.mkdir(bench.path("folder"))
    os.symlink("folder", bench.path("link"))
    put(bench.path("file"), b"")
    before = picture(bench.folder)
    for name, word in (("folder", "it is a folder, not a journal"), ("link", "it is a folder, not a journal"),
                       ("missing/journal", "its folder does not exist"), ("missing/deep/journal", "its folder does not exist"),
                       ("folder/", None), ("missing/", None), ("file/journal", None), ("x" * 300, None), ("folder/..", None)):
        path = bench.path(name)
        out, err = bench.program.run(b"commit 5 0=1\n", path)
        expect(out == b"", shown(path), "is served:", shown(out))
        expect(err.startswith(path.encode() + b": "), shown(path), "is refused with", shown(err))
        expect(word is None or err == b"%s: %s\n" % (path.encode(), word.encode()), shown(path), "is refused with", shown(err))
        expect_same(bench.folder, before)
    put(bench.path("folder/journal"), b"")
    expect_held(bench, bench.path("folder/journal"), model.Command())


@test
def odd_names(bench):
    for name in ("a name with blanks", "caf\u00e9", "x" * 200, "quote'\"$HOME", "-dash", "journal.old", "journal.lock"):
        path = bench.path(name)
        command = expect_served(bench, [b"commit 5 0=1"], path)
        expect_held(bench, path, command)


@test
def a_relative_name(bench):
    out, _ = bench.program.run(b"commit 5 0=1\n", "near", cwd=bench.folder)
    expect_lines(lines_in(out), ["opened near: 0 0 Done", "0 23 Done"])
    expect(len(contents(bench.path("near"))) == 23, "the file is not where it was named")


# ---- fresh, cut, the end of the input, a stranger's hand ----

@test
def fresh_on_a_journal(bench):
    path, old, before = bench.path(), bench.path("journal.old"), a_journal()
    put(path, before.journal)
    lines = [b"fresh", b"standing", b"commit 100 0=7", b"fresh", b"standing", b"now 0"]
    out, _ = bench.program.run(b"\n".join(lines) + b"\n", path)
    got = lines_in(out)
    expect_lines(got[:4], [opened(path, 0, len(before.journal)), "0 0 Done", "0 0 Done 0 0 0 0 0", "0 23 Done"])
    expect(got[4].startswith("? "), "a second fresh is answered", got[4])
    expect_lines(got[5:], ["0 0 Done 1 0 0 0 0", "0 0 Done 7" + " 0" * 15])
    expect(contents(old) == before.journal, "the old journal is not whole")
    expect(contents(path) == b"\x01" + model.record("commit", (100, [(0, 7)])), "the new journal is", contents(path))
    expect_held(bench, path, model.Command(contents(path)))
    expect_held(bench, old, before)


@test
def fresh_with_something_in_the_way(bench):
    path, old, before = bench.path(), bench.path("journal.old"), a_journal()
    put(path, before.journal)
    put(old, b"dear")
    out, _ = bench.program.run(b"fresh\nstanding\n", path)
    expect(lines_in(out)[1] == "? %s is in the way" % old, "fresh is answered", lines_in(out)[1])
    expect(lines_in(out)[2] == before.call("standing", ()), "fresh was done")
    expect(contents(old) == b"dear" and contents(path) == before.journal, "a file was changed")
    os.remove(old)
    os.mkdir(old)
    out, _ = bench.program.run(b"fresh\nstanding\n", path)
    expect(lines_in(out)[2:] == [before.call("standing", ())], "fresh was done over a folder", shown(out))
    os.rmdir(old)
    os.symlink("nowhere", old)
    out, _ = bench.program.run(b"fresh\nstanding\n", path)
    expect(lines_in(out)[2:] == [before.call("standing", ())], "fresh was done over a link", shown(out))
    expect(os.readlink(old) == "nowhere" and not os.path.exists(bench.path("nowhere")), "the link was changed")


@test
def fresh_on_a_new_journal(bench):
    path = bench.path()
    out, _ = bench.program.run(b"fresh\ncommit 5 0=1\nstanding\n", path)
    got = lines_in(out)
    expect_lines(got, [opened(path, 0, 0), "0 0 Done", "0 23 Done", "0 0 Done 1 0 0 0 0"])
    expect_held(bench, path, model.Command(contents(path)))


@test
def cut_beyond_the_end(bench):
    out, _ = bench.program.run(b"cut 1\ncommit 100 0=7\ncut 24\ncut 18446744073709551615\nnow 0\ncut 23\nnow 0\n")
    got = lines_in(out)
    expect(got[0].startswith("? ") and got[2].startswith("? ") and got[3].startswith("? "), "answers", shown(got))
    expect_lines(got[4:], ["0 0 Done 7" + " 0" * 15, "0 23 Done", "0 0 Done 7" + " 0" * 15])


@test
def cut_on_a_journal(bench):
    path, before = bench.path(), a_journal()
    put(path, before.journal)
    out, _ = bench.program.run(b"cut 5\ncut 0\nstanding\n", path)
    got = lines_in(out)
    expect(got[1].startswith("? ") and got[2].startswith("? "), "cut is answered", shown(got[1:3]))
    expect_lines(got[3:], [before.call("standing", ())])
    expect_held(bench, path, before)


@test
def a_last_line_without_its_end(bench):
    for at, rest in enumerate((b"commit 9 0=1", b"standing", b"x", b" ", b"# no more", b"fresh")):
        path = bench.path("journal%d" % at)
        out, _ = bench.program.run(b"commit 5 0=1\n" + rest, path)
        got = lines_in(out)
        expect_lines(got[:2], [opened(path, 0, 0), "0 23 Done"])
        expect(got[2:] == ["? line 2 has no end"], shown(rest), "is answered", shown(got[2:]))
        expect(len(contents(path)) == 23 and not os.path.exists(path + ".old"), shown(rest), "changed something")
        expect_unlocked(path)


@test
def no_lines_at_all(bench):
    expect(bench.program.run(b"") == (b"", b""), "an empty input is answered")
    expect(bench.program.run(b"\n\n   \n# nothing\n\r\n") == (b"", b""), "empty lines are answered")
    expect_held(bench, bench.path(), model.Command())


@test
def a_stranger_writes_into_the_journal(bench):
    for data in (lambda before: before + b"\x00", lambda before: before[:-1], lambda before: b"",
                 lambda before: before + before[1:]):
        path, before = bench.path(), a_journal()
        put(path, before.journal)
        talk = bench.program.talk(path)
        talk.line()
        with open(path, "r+b") as file:  # the same file, as another program would write it
            file.write(data(before.journal))
            file.truncate()
        got = talk.ask("commit 18446744073709551615 0=1")
        expect(got is None or "Done" not in got, "a change after a stranger's is answered", got)
        out, err = talk.end()
        expect(err, "no word on standard error")
        expect(b"Done" not in out, "served after a stranger wrote:", shown(out))
        expect(contents(path) == data(before.journal), "the stranger's bytes were written over")
        expect_unlocked(path)


@test
def nobody_listens(bench):
    """Answers that cannot be said: the file stays whole, and the program ends."""
    command = a_journal()
    put(bench.path(), command.journal)
    steps = chances.plan(bench.chance, command.copy(), 300)
    process = bench.program.start(bench.path())
    process.stdout.close()
    try:
        process.stdin.write(chances.lines_of(steps))
        process.stdin.close()
    except BrokenPipeError:
        pass
    process.stderr.read()
    process.wait(timeout=20)
    process.stderr.close()
    data = contents(bench.path())
    expect(data.startswith(command.journal), "the journal lost something")
    expect_held(bench, bench.path(), model.Command(data))


@test
def answers_that_cannot_be_written(bench):
    if not os.path.exists("/dev/full"):
        raise Skipped("there is no full device here")
    command = a_journal()
    put(bench.path(), command.journal)
    with open("/dev/full", "wb") as full:
        _, err = bench.program.run(b"commit 18446744073709551615 0=1\n" * 3, bench.path(), stdout=full)
    expect(err, "no word on standard error")
    expect(contents(bench.path()).startswith(command.journal), "the journal lost something")
    expect_held(bench, bench.path(), model.Command(contents(bench.path())))
