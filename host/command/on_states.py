# Tests of the coordinator's file: its state whole before and after every call, whatever happens to it or to the program.

import os
import re
import shutil
import subprocess
from itertools import product

import chance as chances
import model
from bench import (
    Skipped, clear, expect_lines, expect_same, expect_unlocked, lines_in, moved_word, opened, picture, put_early, refused, test)
from on_coordinators import MOST, a_coordinator, expect_coordinated, expect_kept, expect_left, expect_quietly_kept, next_grant, told
from on_files import NOBODY, as_nobody, limited_to, mounted
from on_moves import replaced_by_a_folder, replaced_by_a_link_to_nowhere
from on_system_calls import killed_at, moments, strace, traced
from running import Failed, contents, expect, put, shown

# ---- its bytes ----

def written(path):
    """Which file is there, and when it was last written."""
    there = os.stat(path)
    return there.st_ino, there.st_mtime_ns


def ask_and_look(talk, path, command, call):
    """One call: the model's answer, and the model's bytes in the file; a file that stays the same is not written."""
    line, before, seen = model.line_of(*call), command.file, written(path)
    got, wanted = talk.ask(line), command.call(*call)
    expect(got == wanted, line, "is answered", shown(got), "and not", shown(wanted))
    expect(contents(path) == command.file, "after", line, "the file is", shown(contents(path)))
    expect(before != command.file or written(path) == seen, line, "wrote a file that it did not change")
    expect(not os.path.lexists(path + ".new"), "after", line, "the new file is still there")


@test
def the_file_after_every_call(bench):
    """The state whole, before the answer; and opened again it goes on."""
    for turn in range(3):
        path, command = bench.quick("file%d" % turn), model.Coordinating()
        for _ in range(16):
            talk = bench.bare_coordinator.talk(path)
            expect(talk.line() == opened(path, 0, len(command.file)), "not opened")
            for _ in range(bench.chance.randrange(30)):
                ask_and_look(talk, path, command, chances.some_order(bench.chance, command.coordinator))
            expect(talk.end() == (b"", b""), "more is said")
            expect_left(path)
        expect_quietly_kept(bench, path, command)


@test
def a_file_that_is_absent_or_empty(bench):
    """An absent one is made empty; both are a fresh coordinator's."""
    path = bench.path()
    expect_coordinated(bench, [b"granted", b"grant 0 0", b"message 5 4", b"serve 00", b"x"], path)
    expect(os.path.isfile(path) and contents(path) == b"", "an absent file became", shown(contents(path)))
    expect_coordinated(bench, [b"granted"], path)
    expect_coordinated(bench, [b"grant 0 1", b"granted"], path)
    expect(contents(path) == bytes([1] + [0] * 8 + [1] + [0] * 7 + [1]), "the file is", shown(contents(path)))
    expect_coordinated(bench, [b"message 0 %d" % 0x0102030405060708, b"granted"], path)
    expect(contents(path) == bytes([1, 1, 2, 3, 4, 5, 6, 7, 8, 1] + [0] * 7 + [1]), "the file is", shown(contents(path)))
    expect(os.listdir(bench.folder) == ["journal"], "the folder has", os.listdir(bench.folder))


@test
def no_file_in_memory(bench):
    out, err = bench.coordinator.run(b"grant 1 1\nmessage 0 999\ngranted\n", cwd=bench.folder)
    expect_lines(lines_in(out), ["0 257 Done", told(0, 999, [257]), "0 0 Done 1 999 257"])
    expect(err == b"" and os.listdir(bench.folder) == [], "in memory", shown(err), os.listdir(bench.folder))


def expect_judged(bench, path, data, program=None):
    """Opens a file of any bytes and holds what happens against the model's restart: opened as it is, or refused and left. Gives
    the code."""
    clear(path)
    put_early(path, data)
    program, before, wanted = program or bench.bare_coordinator, picture(os.path.dirname(path)), model.Coordinating(data)
    lines = [refused(path, wanted.code, wanted.place)]
    if wanted.code == model.DONE:
        lines = [opened(path, 0, len(data)), wanted.call("granted", ()), wanted.call("grant", (0, 0))]
    status, out, err = program.ended(b"granted\ngrant 0 0\n" + b"grant 72057594037927935 255\n" * (wanted.code != 0), path)
    expect_lines(lines_in(out), lines)
    expect(err == b"", "standard error says", shown(err))
    expect(status == (wanted.code != 0) or not program.is_script(), "the status is", status)
    expect_same(os.path.dirname(path), before)
    return wanted.code


def damaged_files():
    """Files that no coordinator wrote, each with the code and the number of its refusal."""
    word, good = model.word, a_coordinator(3).file
    for version in (0, 2, 10, 49, 255):
        for data in (bytes([version]), bytes([version]) + good[1:], bytes([version]) + bytes(600)):
            yield data, 15, version
    for length in range(1, 10):
        yield good[:length], 16, 1
    for length in {*range(10, 43), 522, 523, 1000000} - {len(good)}:
        yield (good + bytes(length))[:length], 16, 9
    for count in (0, 1, 2, 4, 64, 65, 255):
        yield good[:9] + bytes([count]) + good[10:], 16, 9
    head = b"\x01" + word(7)
    yield head + b"\x41" + b"".join(word(at) for at in range(1, 66)), 16, 9
    yield head + b"\xff" + b"".join(word(at) for at in range(1, 256)), 16, 9
    yield head + b"\x01" + word(0), 16, 10
    yield head + b"\x02" + word(5) + word(5), 16, 18
    yield head + b"\x02" + word(5) + word(4), 16, 18
    yield head + b"\x03" + word(5) + word(9) + word(0), 16, 26
    yield head + b"\x03" + word(9) + word(5) + word(5), 16, 18
    stamps = [word(3 * at) for at in range(1, 65)]
    for at in range(64):
        yield head + b"\x40" + b"".join(stamps[:at] + [word(3 * at)] + stamps[at + 1:]), 16, 10 + 8 * at


@test
def damaged_files_are_refused_and_left(bench):
    for at, (data, code, number) in enumerate(damaged_files()):
        judged = model.restart_coordinator(data)[:2]
        expect(judged == (code, number), "the test's own model says", judged, "for", shown(data))
        try:
            expect_judged(bench, bench.path(), data, bench.bare_coordinator if at % 4 else bench.coordinator)
        except Failed as why:
            raise Failed(shown(data), why)


@test
def files_that_are_taken(bench):
    """Whatever was sent is none of their damage; the largest stamps, and as many as can be."""
    word, path = model.word, bench.path()
    for sent in (0, 1, 5, 2 ** 63, MOST):
        for stamps in ([], [1], [MOST], [5, 6, 7], list(range(MOST - 63, MOST + 1)), [2 ** at for at in range(64)]):
            data = b"\x01" + word(sent) + bytes([len(stamps)]) + b"".join(map(word, stamps))
            expect(expect_judged(bench, path, data) == model.DONE, "the test's own model")
    expect(expect_judged(bench, path, b"", bench.coordinator) == model.DONE, "the test's own model")
    expect(expect_judged(bench, path, a_coordinator().file, bench.coordinator) == model.DONE, "the test's own model")


@test
def every_cut_and_every_changed_byte_of_a_file(bench):
    whole, seen = a_coordinator(7).file, {}
    cases = [(("cut at", length), whole[:length]) for length in range(len(whole))]
    for at in range(len(whole)):
        for mask in (1, 128, bench.chance.randrange(1, 256)):
            cases.append((("byte", at, "xor", mask), whole[:at] + bytes([whole[at] ^ mask]) + whole[at + 1:]))
    for what, data in cases:
        try:
            code = expect_judged(bench, bench.quick(), data)
        except Failed as why:
            raise Failed(*what, why)
        seen[code] = seen.get(code, 0) + 1
    bench.tell("codes " + ", ".join("%d x %d" % (seen[code], code) for code in sorted(seen)))
    expect(set(seen) == {model.DONE, model.VERSION, model.MALFORMED}, "not every code was met", seen)


# ---- the new file beside it ----

def expect_untouched(path, data, what):
    expect(contents(path) == data, what, "is", shown(contents(path)))


@test
def a_new_file_left_over(bench):
    """By a kill between its making and its renaming: the file counts, and the next change goes on."""
    path, command, later = bench.path(), a_coordinator(5), a_coordinator(6)
    for rest in (b"", b"\x01", b"rubbish" * 100, later.file, later.file[:-3], command.file):
        put(path, command.file)
        put(path + ".new", rest)
        out, err = bench.coordinator.run(b"granted\n", path)
        expect_lines(lines_in(out), [opened(path, 0, len(command.file)), command.answer(b"granted")])
        expect_untouched(path, command.file, "with a new file left over the file")
        put(path + ".new", rest)
        after = command.copy()
        line = next_grant(after)
        out, err = bench.coordinator.run(line.encode() + b"\ngranted\n", path)
        expect_lines(lines_in(out)[1:], [after.answer(line.encode()), after.answer(b"granted")])
        expect(err == b"", "standard error says", shown(err))
        expect_untouched(path, after.file, "after a change the file")
        expect_left(path)
    os.remove(path)
    put(path + ".new", later.file)
    out, _ = bench.coordinator.run(b"granted\n", path)
    expect_lines(lines_in(out), [opened(path, 0, 0), "0 0 Done 0 0"])


@test
def something_else_where_the_new_file_should_be(bench):
    """A folder, or a link to a file that is dear to somebody: either it is served or there is a word, and nothing is lost."""
    command, dear = a_coordinator(5), b"dear"
    for kind in ("folder", "link", "link to nowhere", "link to itself"):
        folder = bench.path(kind)
        os.mkdir(folder)
        path, other = os.path.join(folder, "file"), os.path.join(folder, "other")
        put(path, command.file)
        put(other, dear)
        if kind == "folder":
            os.mkdir(path + ".new")
        else:
            os.symlink({"link": "other", "link to nowhere": "nowhere", "link to itself": "file"}[kind], path + ".new")
        after, line = command.copy(), next_grant(command).encode()
        out, err = bench.coordinator.run(line + b"\n", path)
        answers = lines_in(out)[1:]
        expect(answers == [after.answer(line)] or answers == [] and err, "with a", kind, "in the way it says", shown(out), shown(err))
        expect(not os.path.islink(path), "with a", kind, "in the way the file became a link")
        expect_untouched(path, after.file if answers else command.file, "with a %s in the way the file" % kind)
        expect(contents(other) == dear and not os.path.exists(os.path.join(folder, "nowhere")), "a", kind, "was followed")
        expect_unlocked(path)
        expect_kept(bench, path, after if answers else command)


# ---- a file that another changes while it is open ----

def removed(path):
    os.remove(path)


def renamed(path):
    os.rename(path, path + " at another place")


def emptied(path):
    put(path, b"")


def changed_in_its_middle(path):
    data = contents(path)
    put(path, data[:5] + bytes([data[5] ^ 1]) + data[6:])


def changed_at_its_end(path):
    data = contents(path)
    put(path, data[:-1] + bytes([data[-1] ^ 1]))


def cut_by_a_byte(path):
    put(path, contents(path)[:-1])


def longer_by_a_byte(path):
    put(path, contents(path) + b"\x00")


def of_a_later_state(path):
    put(path, a_coordinator(9).file)


def of_an_earlier_state(path):
    put(path, a_coordinator(2).file)


def replaced_by_another(path):
    put(path + " other", a_coordinator(9).file)
    os.rename(path + " other", path)


CHANGES = [removed, renamed, emptied, changed_in_its_middle, changed_at_its_end, cut_by_a_byte, longer_by_a_byte, of_a_later_state,
           of_an_earlier_state, replaced_by_another, replaced_by_a_folder, replaced_by_a_link_to_nowhere]


def changed_under(bench, change, order, program):
    """A file is changed while the program has it: what changes nothing is served, a change stops it, and nothing is written."""
    folder = bench.path(change.__name__ + " " + order.split()[0])
    os.mkdir(folder)
    path, command = os.path.join(folder, "file"), a_coordinator(5)
    put_early(path, command.file)
    talk = program.talk(path)
    expect(talk.line() == opened(path, 0, len(command.file)), "not opened")
    change(path)
    before = picture(folder)
    expect(talk.ask("granted") == command.answer(b"granted"), "a call that changes nothing is not served")
    expect(talk.ask("grant 0 0") == command.answer(b"grant 0 0"), "a call that is refused is not served")
    got = talk.ask(order)
    expect(got is None, shown(order), "is answered", shown(got))
    out, err = talk.end()
    expect(out == b"", "it says more:", shown(out))
    words = {removed: moved_word(path), renamed: moved_word(path), replaced_by_a_folder: "", replaced_by_a_link_to_nowhere: ""}
    wanted = words.get(change, path + ": another program has changed it")
    expect(err.startswith(path.encode() + b": ") and err.count(b"\n") == 1, "standard error says", shown(err))
    expect(not wanted or err.decode() == wanted + "\n", "standard error says", shown(err), "and should say", wanted)
    del before["file.lock"]
    expect_same(folder, before)
    return talk.process.returncode


@test
def changed_by_another_before_a_change(bench):
    orders = [next_grant(a_coordinator(5)), "message 0 99999", "serve " + model.request(0, 99999).hex()]
    for at, change in enumerate(CHANGES):
        program = bench.coordinator if at % 4 == 0 else bench.bare_coordinator
        try:
            status = changed_under(bench, change, orders[at % 3], program)
            expect(status == 1 or not program.is_script(), "the status is", status)
        except Failed as why:
            raise Failed(change.__name__.replace("_", " ") + ":", why)


@test
def replaced_by_the_same_bytes(bench):
    """The state is at its name, so the program goes on; so it does where the file was away between two calls."""
    path, command = bench.path(), a_coordinator(5)
    put(path, command.file)
    talk = bench.coordinator.talk(path)
    talk.line()
    for move in (lambda: shutil.copy2(path, path + " copy") and os.rename(path + " copy", path),
                 lambda: os.rename(path, path + " away") or os.rename(path + " away", path), lambda: os.utime(path, (1, 1))):
        move()
        line = next_grant(command)
        expect(talk.ask(line) == command.answer(line.encode()), "not served after its own bytes were put there again")
        expect_untouched(path, command.file, "then the file")
    expect(talk.end() == (b"", b""), "more is said")
    expect_quietly_kept(bench, path, command)


@test
def its_folder_moved_away(bench):
    folder, command = bench.path("folder"), a_coordinator(5)
    os.mkdir(folder)
    path = os.path.join(folder, "file")
    put(path, command.file)
    talk = bench.coordinator.talk(path)
    talk.line()
    os.rename(folder, bench.path("elsewhere"))
    expect(talk.ask("granted") == command.answer(b"granted"), "a call that changes nothing is not served")
    expect(talk.ask(next_grant(command)) is None, "a change without the folder is answered")
    _, err = talk.end()
    expect(err, "no word on standard error")
    expect_untouched(bench.path("elsewhere/file"), command.file, "the file")
    expect(not os.path.exists(folder), "the folder was made again")


# ---- files and folders that may not be written, and what is no file ----

def own(bench, name, data):
    """A folder with a coordinator's file, both the unprivileged user's own."""
    folder = bench.path(name)
    os.mkdir(folder)
    path = os.path.join(folder, "file")
    put(path, data)
    if os.geteuid() == 0:
        os.chown(folder, NOBODY, NOBODY)
        os.chown(path, NOBODY, NOBODY)
    return folder, path


def expect_no_way_in(bench, path, options, what):
    """One word or more, no line, no status of 0."""
    status, out, err = bench.coordinator.ended(b"granted\ngrant 72057594037927935 255\n", path, **options)
    expect(err, what, "is refused without a word; standard output:", shown(out))
    expect(out == b"", what, "is served:", shown(out))
    expect(status == 1 or not bench.coordinator.is_script(), what, "has the status", status)
    return err.decode()


@test
def a_state_that_may_not_be_written(bench):
    options, command = as_nobody(bench), a_coordinator(5)
    for mode in (0o444, 0o222, 0o000):
        _, path = own(bench, "mode%o" % mode, command.file)
        os.chmod(path, mode)
        expect_no_way_in(bench, path, options, "a file of mode %o" % mode)
        expect_left(path)
        os.chmod(path, 0o644)
        expect_quietly_kept(bench, path, command)


@test
def a_state_in_a_folder_that_may_not_be_written(bench):
    options, command = as_nobody(bench), a_coordinator(5)
    folder, path = own(bench, "closed", command.file)
    os.chmod(folder, 0o555)
    for name in (path, os.path.join(folder, "other")):
        err = expect_no_way_in(bench, name, options, "a folder that may not be written")
        expect(err == "%s: no lock can be made: %s.lock: Permission denied\n" % (name, name), "standard error says", shown(err))
    expect(os.listdir(folder) == ["file"], "the folder has", os.listdir(folder))
    os.chmod(folder, 0o755)
    expect_quietly_kept(bench, path, command)
    talk = bench.coordinator.talk(path, **options)
    expect(talk.line() == opened(path, 0, len(command.file)), "not opened")
    os.chmod(folder, 0o555)
    expect(talk.ask(next_grant(command)) is None, "a change in a folder that was closed is answered")
    _, err = talk.end()
    expect(err, "no word on standard error")
    os.chmod(folder, 0o755)
    expect_untouched(path, command.file, "the file")
    clear(path + ".lock")
    expect_quietly_kept(bench, path, command)


@test
def a_state_where_no_file_can_be(bench):
    """What is wrong is told by its name, nothing is made, and no lock is left. A link is refused, wherever it leads."""
    command = a_coordinator(5)
    os.mkdir(bench.path("folder"))
    put_early(bench.path("file"), command.file)
    for name, target in (("to a folder", "folder"), ("to a file", "file"), ("to nowhere", "nowhere"), ("to itself", "to itself")):
        os.symlink(target, bench.path(name))
    before = picture(bench.folder)
    for name in ("folder", "to a folder", "to a file", "to nowhere", "to itself", "missing/file", "missing/deep/file", "folder/", "missing/",
                 "file/file", "x" * 300, "folder/.."):
        err = expect_no_way_in(bench, bench.path(name), {}, shown(name))
        expect(err.startswith(bench.path(name) + ": ") and err.count("\n") == 1, shown(name), "is refused with", shown(err))
        expect_same(bench.folder, before)
    os.mkfifo(bench.path("pipe"))
    expect_no_way_in(bench, bench.path("pipe"), {}, "a pipe with a name")
    expect_left(bench.path("pipe"))
    expect_quietly_kept(bench, bench.path("file"), command, bench.coordinator)


@test
def a_state_with_two_names(bench):
    """One of them would keep the old state after a change: refused, and nothing is changed. With one name it is opened."""
    path, command = bench.path(), a_coordinator(5)
    put_early(path, command.file)
    os.link(path, bench.path("second"))
    before = picture(bench.folder)
    for name in ("journal", "second"):
        expect_no_way_in(bench, bench.path(name), {}, "a file with two names")
        expect_same(bench.folder, before)
    os.remove(bench.path("second"))
    expect_quietly_kept(bench, path, command)


@test
def a_replaced_state_keeps_owner_and_mode(bench):
    """Its mode, and where root serves another's file, its owner."""
    path, command = bench.path(), a_coordinator(5)
    for mode in (0o600, 0o640, 0o644, 0o666):
        put(path, command.file)
        os.chmod(path, mode)
        if os.geteuid() == 0:
            os.chown(path, NOBODY, NOBODY)
        expect_coordinated(bench, [next_grant(command).encode(), b"message 0 9999"], path, bench.bare_coordinator)
        there = os.stat(path)
        expect(there.st_mode & 0o777 == mode, "a file of mode %o" % mode, "has after a change %o" % (there.st_mode & 0o777))
        expect(os.geteuid() != 0 or (there.st_uid, there.st_gid) == (NOBODY, NOBODY), "another's file is now", there.st_uid, there.st_gid)


@test
def odd_names_of_a_state(bench):
    for name in ("a name with blanks", "caf\u00e9", "x" * 200, "quote'\"$HOME", "file.new", "file.lock", "file.new.new"):
        expect_coordinated(bench, [b"grant 1 1", b"message 0 600"], bench.path(name))
        expect_coordinated(bench, [b"grant 9 9", b"granted"], bench.path(name))
    out, _ = bench.coordinator.run(b"grant 1 1\n", "near", cwd=bench.folder)
    expect_lines(lines_in(out), ["opened near: 0 0 Done", "0 257 Done"])
    expect(len(contents(bench.path("near"))) == 18, "the file is not where it was named")
    os.symlink(bench.folder, bench.path("link"))
    out, _ = bench.coordinator.run(b"granted\ngrant 2 2\n", bench.path("link/near"))
    expect(lines_in(out)[1:] == ["0 0 Done 1 0 257", "0 514 Done"], "through a folder that is a link", shown(out))


# ---- no room ----

def expect_stopped(path, before, lines, out, err):
    """A program that could not write: a word, what it acknowledged is in the file, and no more than it had in hand."""
    answers = lines_in(out)
    expect(answers[:1] == [opened(path, model.DONE, len(before.file))], "the first line is", shown(answers[:1]))
    count = len(answers) - 1
    expect(count < len(lines), "every change was acknowledged, room or not")
    after = before.copy()
    expect_lines(answers[1:], [after.answer(line) for line in lines[:count]])
    expect(err, "no word on standard error")
    acknowledged = after.copy()
    after.answer(lines[count])
    expect(contents(path) in (acknowledged.file, after.file), "the file is", shown(contents(path)))
    expect_left(path)
    return acknowledged if contents(path) == acknowledged.file else after


def grants(command, count):
    """Lines of so many grants."""
    return [next_grant(command, 1 + at).encode() for at in range(count)]


@test
def a_new_file_that_may_not_grow(bench):
    """The lock has some 50 bytes; beyond those the file has room for some stamps and no more."""
    path = bench.path()
    for size in (70, 73, 74, 81, 82, 83, 90, 250, 521):
        before = model.Coordinating()
        lines = grants(before, 64)
        clear(path)
        out, err = bench.bare_coordinator.run(b"\n".join(lines) + b"\n", path, preexec_fn=limited_to(size))
        after = expect_stopped(path, before, lines, out, err)
        expect(len(after.file) == size - (size - 10) % 8, "with room for", size, "the file has", len(after.file))
        expect_quietly_kept(bench, path, after)
    for size in (0, 1, 20, 40):
        clear(path)
        put(path, a_coordinator(5).file)
        out, err = bench.bare_coordinator.run(b"grant 99 9\n", path, preexec_fn=limited_to(size))
        expect(b"257 Done" not in out and err, "without room for a lock", shown(out), shown(err))
        expect_unlocked(path)
        expect_quietly_kept(bench, path, a_coordinator(5))


@test
def a_full_disk_under_a_coordinator(bench):
    """The page that its new file needs is not there; when it is there again, all goes on."""
    folder = bench.path("disk")
    try:
        mounted(folder, 3 * os.sysconf("SC_PAGE_SIZE"))
    except FileNotFoundError:
        raise Skipped("there is no mount command here")
    try:
        full_disk(bench, os.path.join(folder, "file"), os.path.join(folder, "more"))
    finally:
        subprocess.run(["umount", "-l", folder], capture_output=True)


def full_disk(bench, path, more):
    command = a_coordinator(5)
    put(path, command.file)
    talk, line = bench.coordinator.talk(path), next_grant(command)
    expect(talk.line() == opened(path, 0, len(command.file)), "not opened")
    put(more, b"x")
    expect(talk.ask(line) is None, "a change without room is answered")
    _, err = talk.end()
    expect(err, "no word on standard error")
    expect(talk.process.returncode == 1 or not bench.coordinator.is_script(), "the status is", talk.process.returncode)
    expect_untouched(path, command.file, "on a full disk the file")
    expect_left(path)
    os.remove(more)
    expect_quietly_kept(bench, path, command)
    expect_coordinated(bench, [line.encode(), b"granted"], path)


@test
def a_coordinator_to_whom_nobody_listens(bench):
    """Answers that cannot be said: the file is whole, the program ends with a word, and the state is before or after a call."""
    path, command = bench.path(), a_coordinator(5)
    states = [command.copy()]
    lines = grants(command, 20)
    for line in lines:
        states.append(states[-1].copy())
        states[-1].answer(line)
    put(path, command.file)
    if os.path.exists("/dev/full"):
        with open("/dev/full", "wb") as full:
            _, err = bench.coordinator.run(b"\n".join(lines) + b"\n", path, stdout=full)
        expect(err.startswith(b"standard output: ") and err.count(b"\n") == 1, "standard error says", shown(err))
        expect_untouched(path, command.file, "where its first line could not be said the file")
    process = bench.coordinator.start(path)
    process.stdout.readline()
    process.stdout.close()
    try:
        process.stdin.write(b"\n".join(lines) + b"\n")
        process.stdin.close()
    except BrokenPipeError:
        pass
    process.stderr.read()
    process.wait(timeout=20)
    process.stderr.close()
    expect(contents(path) in [state.file for state in states], "the file is", shown(contents(path)))
    expect_kept(bench, path, model.Coordinating(contents(path)))


# ---- system call by system call ----

def order_of(calls, path):
    """One letter for each call: m the new file is made, w written, s synced, r renamed, f the folder synced, a an answer."""
    order, new, folder = "", None, None
    for call in calls:
        done = re.search(r"= (\d+)$", call)
        if call.startswith("open") and done and path + ".new" in call and "O_CREAT" in call:
            order, new = order + "m", done.group(1)
        elif call.startswith("open") and done and '"%s"' % os.path.dirname(path) in call:
            folder = done.group(1)
        elif new and re.match(r"p?write(v|64)?\(%s," % new, call):
            order += "w"
        elif new and re.match(r"(fdatasync|fsync)\(%s\)\s+= 0" % new, call):
            order += "s"
        elif re.match(r'rename\w*\(.*%s\.new", .*"%s"' % (re.escape(path), re.escape(path)), call):
            order += "r"
        elif folder and re.match(r"fsync\(%s\)\s+= 0" % folder, call):
            order += "f"
        elif re.match(r"close\((%s|%s)\)" % (new, folder), call):
            new, folder = (None, folder) if call.startswith("close(%s)" % new) else (new, None)
        elif re.match(r"write(v)?\(1,", call):
            order += "a"
    return order


@test
def replaced_for_good_before_it_is_answered(bench):
    """The new file is written and synced, then it has the name, then the folder is synced; only then there is an answer."""
    path = bench.path()
    lines = [b"grant 1 1", b"message 0 600", b"serve " + model.request(0, 700).hex().encode(), b"grant 9 9"]
    out, calls = traced(bench, path, lines, bench.bare_coordinator)
    expect(len(lines_in(out)) == 5, "answers", shown(out))
    order = order_of(calls, path)
    expect(re.fullmatch(r"f*a+(mw+srfa+){4}", order), "made, written, synced, renamed, answered come in the order", order)
    idle = [b"grant 9 9", b"granted", b"message 0 500", b"message 5 4", b"serve 00", b"serve " + model.request(0, 700).hex().encode(), b"x"]
    _, calls = traced(bench, path, idle, bench.bare_coordinator)
    order = order_of(calls, path)
    expect(re.fullmatch(r"f*a+", order), "calls that change nothing come in the order", order)


def some_lines(chance, command, count):
    """Lines that change the state, each of them, and the states after them."""
    lines, states = [], [command.copy()]
    while len(lines) < count:
        after = states[-1].copy()
        call = chances.some_order(chance, after.coordinator)
        after.call(*call)
        if after.file != states[-1].file:
            lines.append(model.line_of(*call).encode())
            states.append(after)
    return lines, states


def expect_before_or_after(bench, path, states, out):
    """What was answered is in the file, and no more than the call in hand; and it is opened again. Gives how many were answered."""
    heard = out.count(b"\n")
    answers = [state.file for state in (states[:1] if heard == 0 else states[heard - 1:heard + 1])]
    expect(contents(path) in answers, "after", heard, "lines the file is", shown(contents(path)), "and should be one of", shown(answers))
    expect_kept(bench, path, model.Coordinating(contents(path)))
    return heard


@test
def a_coordinator_killed_at_every_system_call(bench):
    path, before = bench.path(), a_coordinator(7)
    lines, states = some_lines(bench.chance, before, 4)
    data = b"\n".join(lines) + b"\n"
    for left in ({}, {".new": b"rubbish"}):
        lay = lambda: (clear(path), put(path, before.file), [put(path + end, text) for end, text in left.items()])
        lay()
        _, calls = traced(bench, path, lines, bench.bare_coordinator)
        places = moments(calls, ".lock")
        for name, count in places:
            lay()
            out = killed_at(bench, path, (name, count), data, bench.bare_coordinator)
            try:
                expect_before_or_after(bench, path, states, out)
            except Failed as why:
                raise Failed("killed at %s number %d:" % (name, count), why)
    bench.tell("%d moments" % len(places))


@test
def a_coordinator_on_a_disk_that_fails(bench):
    """Each call in its turn gives an error. Where it would have changed something: a word, and the change is not answered; where it
    only looks, all may go on. The state is before or after."""
    path, before = bench.path(), a_coordinator(7)
    lines, states = some_lines(bench.chance, before, 2)
    put(path, before.file)
    _, calls = traced(bench, path, lines, bench.bare_coordinator)
    served = calls[:1 + max(at for at, call in enumerate(calls) if call.startswith("write(1,"))]
    changing = moments(served, '"opened')
    places = [place for place in moments(served, '"opened', looks=True) if place[0] != "read"]
    expect({"rename", "fsync", "write"} <= {name for name, _ in changing}, "the trace shows only", changing)
    for place, fault in product(places, ("EIO", "ENOSPC")):
        clear(path)
        put(path, before.file)
        words = ["-o", os.devnull, "-e", "trace=" + place[0], "-e", "inject=%s:error=%s:when=%d" % (place[0], fault, place[1])]
        out, err = strace(bench, words, path, b"\n".join(lines) + b"\n", bench.bare_coordinator)
        try:
            heard = expect_before_or_after(bench, path, states, out)
            all_served = heard == len(states) and not err and place not in changing
            expect(all_served or err and heard < len(states), heard, "lines are answered, and standard error says", shown(err))
        except Failed as why:
            raise Failed("%s number %d" % place, "gives", fault + ":", why)
    bench.tell("%d moments" % len(places))
