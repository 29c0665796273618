# Tests of two programs and one journal, and of what a lock says of its holder.

import os
import re
import shutil
import subprocess
import tempfile
import time

import model
from bench import (
    Skipped, a_journal, boot, clear, dead_number, expect_held, expect_same, expect_unlocked, holder, lines_in, opened, opened_among,
    picture, put_early, side_by_side, started, test)
from on_files import NOBODY, as_nobody
from running import Failed, contents, expect, put, shown


def held_word(path, number, what="the journal"):
    return "%s: process %d has %s; its lock is %s.lock" % (path, number, what, path)


def number_in(path):
    """The process's number in a lock."""
    return int(contents(path + ".lock").split()[0])


def parent_of(number):
    return int(contents("/proc/%d/stat" % number).rpartition(b")")[2].split()[1])


@test
def a_second_program_is_refused(bench):
    for name, program in (("script", bench.program), ("bare", bench.bare)):
        path = bench.path(name)
        first = program.talk(path)
        expect(first.line() == opened(path, 0, 0), "the first did not open")
        expect(first.ask("commit 5 0=1") == "0 23 Done", "the first is not served")
        lock, number = contents(path + ".lock"), number_in(path)
        expect(number == first.pid if program is bench.bare else parent_of(number) == first.pid, "the lock holds", lock)
        out, err = program.run(b"commit 6 0=2\n", path)
        expect(out == b"", "the second is served:", shown(out))
        expect(err.decode() == held_word(path, number) + "\n", "the second says", shown(err))
        expect(contents(path + ".lock") == lock, "the second moved the lock")
        expect(first.ask("commit 7 0=3") == "0 45 Done", "the first does not go on")
        first.end()
        expect_unlocked(path)
        words = expect_held(bench, path, model.Command(contents(path)))
        expect(words == [], "a third finds something wrong:", shown(words))


@test
def a_lock_tells_number_start_and_boot(bench):
    path = bench.path()
    talk = bench.bare.talk(path)
    talk.line()
    expect(contents(path + ".lock") == holder(talk.pid), "the lock holds", contents(path + ".lock"), "and not", holder(talk.pid))
    expect(re.fullmatch(rb"\d+ \d+ [0-9a-f-]{36}\n", contents(path + ".lock")), "the lock holds", contents(path + ".lock"))
    talk.end()
    expect_unlocked(path)


@test
def programs_on_two_journals(bench):
    talks = [bench.program.talk(bench.path("journal%d" % at)) for at in range(4)]
    for talk in talks:
        expect(" 0 0 Done" in talk.line(), "not opened")
    for talk in talks:
        expect(talk.ask("commit 5 0=1") == "0 23 Done", "not served")
        talk.end()


# ---- whose lock is it? ----

def own_folder(bench):
    """A path in a new folder, so that tests can go side by side."""
    return os.path.join(tempfile.mkdtemp(dir=bench.folder), "journal")


def expect_taken_over(bench, text, word, what):
    """A lock that is taken over, with its word; a lock without a process has the other one."""
    path, command = own_folder(bench), a_journal(8)
    put(path, command.journal)
    put(path + ".lock", text)
    try:
        words = expect_held(bench, path, command, bench.bare)
    except Failed as why:
        raise Failed("a lock of %s:" % what, why)
    expect(words in [[path + ".lock: " + one] for one in word.split(" or ")], "of the lock of", what, "it says", shown(words))
    expect(os.listdir(os.path.dirname(path)) == ["journal"], "beside the journal is", os.listdir(os.path.dirname(path)))


def expect_respected(bench, text, number, what, **options):
    """A lock that is respected: one word, and nothing is changed."""
    path = own_folder(bench)
    put_early(path, a_journal(8).journal + b"\x00")
    put_early(path + ".lock", text)
    before = picture(os.path.dirname(path))
    out, err = bench.bare.run(b"standing\ncommit 18446744073709551615 0=1\n", path, **options)
    expect(out == b"", "the lock of", what, "is passed over:", shown(out), shown(err))
    expect(err.decode() == held_word(path, number) + "\n", "of the lock of", what, "it says", shown(err))
    expect_same(os.path.dirname(path), before)


NOBODY_THERE = "there was no process in it; it is taken over"


def gone(number):
    return "process %d is gone; its lock is taken over" % number


@test
def locks_of_the_dead_are_taken_over(bench):
    dead = dead_number()
    cases = [(b"%d\n" % dead, gone(dead))]
    cases += [(b"%d %d %s\n" % (dead, start, boot()), gone(dead)) for start in (5, 2 ** 64 - 1)]
    cases += [(text, NOBODY_THERE) for text in (b"", b"\n", b"rubbish\n", b"0 0 %s\n" % boot(), b"-1\n", b"0\n")]
    cases += [(b"%d" % dead, NOBODY_THERE + " or " + gone(dead)), (b"4194999\n", gone(4194999)),
              (b"99999999999999999999\n", NOBODY_THERE + " or " + gone(99999999999999999999))]
    side_by_side(lambda text, word: expect_taken_over(bench, text, word, shown(text)), cases, 6)


def sleeper(name="sleeper"):
    """A process that lives and waits, under a name that we choose."""
    words = ["sh", "-c", 'printf %s "$0" >/proc/$$/comm && echo && read word', name]
    process = subprocess.Popen(words, stdin=subprocess.PIPE, stdout=subprocess.PIPE)
    process.stdout.readline()
    expect(b"(%s)" % name.encode() in contents("/proc/%d/stat" % process.pid), "the test's own process has another name")
    return process


def end_all(processes):
    for process in processes:
        process.kill()
        process.communicate()


def zombie():
    """A process that is dead and not waited for."""
    process = subprocess.Popen(["true"])
    while contents("/proc/%d/stat" % process.pid).rpartition(b")")[2].split()[0] != b"Z":
        time.sleep(0.001)
    return process


@test
def locks_of_the_living_are_respected(bench):
    """In the new form and in the old, whatever the process is called."""
    sleepers = [sleeper(name) for name in ("sleep", "a) Z 5 (b", ") Z 1 1 1 1 1", "x y\tz", "9 9 9 9", "(((", ")")]
    try:
        cases = [(holder(process.pid), process.pid, "a living process called %r" % process.args[3]) for process in sleepers]
        cases += [(b"%d\n" % process.pid, process.pid, "a living process in the old form") for process in sleepers[:2]]
        cases += [(b"%d\n" % os.getpid(), os.getpid(), "the test itself"), (holder(1), 1, "the first process")]
        side_by_side(lambda *case: expect_respected(bench, *case), cases, 6)
    finally:
        end_all(sleepers)


@test
def a_number_that_was_given_again(bench):
    """A living process that began at another time, or after another start of the machine, has nothing to do with the lock."""
    process = sleeper()
    number, start, boot_id = process.pid, started(process.pid), boot()
    other = boot_id[:-1] + (b"0" if boot_id[-1:] != b"0" else b"1")
    first = (b"0" if boot_id[:1] != b"0" else b"1") + boot_id[1:]
    cases = (("a later start", start + 1, boot_id), ("an earlier start", start - 1, boot_id),
             ("a start ten times as late", 10 * start, boot_id), ("another boot", start, other),
             ("a boot that begins otherwise", start, first), ("another start and boot", start + 1, other))
    try:
        for what, start_told, boot_told in cases:
            expect_taken_over(bench, b"%d %d %s\n" % (number, start_told, boot_told), gone(number), what)
        expect_respected(bench, b"%d %d %s\n" % (number, start, boot_id), number, "the process itself")
    finally:
        end_all([process])


@test
def a_lock_of_a_zombie(bench):
    """A program that was killed and whose parent has not waited for it."""
    process = zombie()
    try:
        expect_taken_over(bench, holder(process.pid), gone(process.pid), "a zombie")
    finally:
        process.wait()
    path, command = bench.path(), a_journal(8)
    put(path, command.journal)
    talk = bench.bare.talk(path)
    talk.line()
    os.kill(talk.pid, 9)  # and it is not waited for
    talk.line()
    words = expect_held(bench, path, command, bench.bare)
    expect(words == [path + ".lock: " + gone(talk.pid)], "of a killed program's lock it says", words)
    talk.kill()


def hiding(words, *before):
    """A command that is run where nobody sees another user's processes."""
    hide = 'mount -t proc -o hidepid=2 proc /proc && exec setpriv --reuid 65534 --regid 65534 --clear-groups "$@"'
    return ["unshare", "--mount", "sh", "-c", hide, "sh", *before, *words]


def expect_respected_unseen(bench, *before):
    """Where another user's processes are not shown, their locks are respected all the same."""
    as_nobody(bench)
    if os.geteuid() != 0 or shutil.which("unshare") is None:
        raise Skipped("hiding processes is not permitted here")
    if subprocess.run(hiding(["true"], *before), capture_output=True).returncode != 0:
        raise Skipped("hiding processes is not permitted here")
    path, process = own_folder(bench), sleeper()
    put_early(path, a_journal(8).journal)
    put_early(path + ".lock", holder(process.pid))
    for name in (os.path.dirname(path), path, path + ".lock"):
        os.chown(name, NOBODY, NOBODY)
    try:
        done = subprocess.run(hiding([bench.bare.path, path], *before), input=b"standing\n", capture_output=True, timeout=30)
        expect(done.stdout == b"", "the lock is passed over:", shown(done.stdout), shown(done.stderr))
        expect(done.stderr.decode() == held_word(path, process.pid) + "\n", "it says", shown(done.stderr))
    finally:
        end_all([process])


@test
def a_lock_of_the_living_that_proc_hides(bench):
    expect_respected_unseen(bench)


@test
def a_lock_of_the_living_beyond_our_users(bench):
    """A program with every right among users of its own has none over others' processes."""
    expect_respected_unseen(bench, "unshare", "--user", "--map-root-user")


@test
def a_lock_that_is_a_link_to_nowhere(bench):
    path = bench.path()
    put(path, a_journal(8).journal)
    os.symlink("nowhere", path + ".lock")
    words = expect_held(bench, path, a_journal(8))
    expect(words == [path + ".lock: " + NOBODY_THERE], "standard error says", words)
    expect(os.listdir(bench.folder) == ["journal"], "beside the journal is", os.listdir(bench.folder))


@test
def a_lock_removed_by_hand(bench):
    """Then a second program opens. The first sees that the file has grown, stops, and leaves the second's lock where it is."""
    path, command = bench.path(), a_journal()
    put(path, command.journal)
    first = bench.program.talk(path)
    first.line()
    os.remove(path + ".lock")
    second = bench.program.talk(path)
    expect(second.line() == opened(path, 0, len(command.journal)), "the second did not open")
    line = "commit 18446744073709551614 0=1"
    expect(second.ask(line) == command.answer(line.encode()), "the second is not served")
    lock = contents(path + ".lock")
    expect(first.ask("commit 18446744073709551615 0=2") is None, "the first is served")
    _, err = first.end()
    expect(err.decode() == path + ": another program has changed it\n", "standard error says", shown(err))
    expect(lock and contents(path + ".lock") == lock, "the second's lock is gone")
    second.end()
    expect_unlocked(path)
    expect_held(bench, path, command)


@test
def a_lock_with_the_number_of_the_opener_itself(bench):
    """After a restart of the machine, or in a container, the same number comes again and again."""
    path, command = bench.path(), a_journal()
    texts = (lambda: b"%d\n" % os.getpid(), lambda: b"%d %d %s\n" % (os.getpid(), started(os.getpid()) - 1, boot()),
             lambda: b"%d %d %s\n" % (os.getpid(), started(os.getpid()), b"0" * 36))
    for text in texts:
        put(path, command.journal)
        process = bench.bare.start(path, preexec_fn=lambda: put(path + ".lock", text()))
        out, err = process.communicate(b"standing\n", timeout=30)
        expect(lines_in(out)[:1] == [opened(path, 0, len(command.journal))], "not opened:", shown(out), shown(err))
        expect(err.decode() == "%s.lock: %s\n" % (path, gone(process.pid)), "standard error says", shown(err))
        expect_unlocked(path)


# ---- what is in the lock's way ----

@test
def a_folder_where_the_lock_should_be(bench):
    path = bench.path()
    put_early(path, a_journal(8).journal + b"\x00")
    os.mkdir(path + ".lock")
    put_early(path + ".lock/dear", b"dear")
    before = picture(bench.folder)
    out, err = bench.program.run(b"standing\n", path)
    expect(out == b"", "served:", shown(out))
    expect(err.decode() == "%s.lock: it is a folder, where the lock should be\n" % path, "standard error says", shown(err))
    expect_same(bench.folder, before)
    os.remove(path + ".lock/dear")
    out, err = bench.program.run(b"standing\n", path)
    expect(out == b"" and os.path.isdir(path + ".lock"), "an empty folder in the lock's place was removed", shown(err))


@test
def a_folder_where_the_guard_should_be(bench):
    path, dead = bench.path(), dead_number()
    put_early(path, a_journal(8).journal + b"\x00")
    os.mkdir(path + ".lock.take")
    for text in (b"%d\n" % dead, b"%d 5 %s\n" % (dead, boot()), b""):
        put_early(path + ".lock", text)
        before = picture(bench.folder)
        out, err = bench.program.run(b"standing\n", path)
        expect(out == b"", "served:", shown(out))
        wanted = "%s.lock.take: it is a folder, where the lock's guard should be\n" % path
        expect(err.decode() == wanted, "standard error says", shown(err))
        expect_same(bench.folder, before)
    os.remove(path + ".lock")
    out, err = bench.program.run(b"standing\n", path)
    expect(out.startswith(b"opened "), "a guard that nobody needs is in the way:", shown(err))


@test
def guards_of_the_dead(bench):
    """Left by a kill in the middle of a taking over: in the old form and the new, of a zombie, of a number given again, empty."""
    path, command, dead, asleep, ended = bench.path(), a_journal(8), dead_number(), sleeper(), zombie()
    try:
        for text in (b"%d\n" % dead, b"%d 5 %s\n" % (dead, boot()), holder(ended.pid), b"",
                     b"%d %d %s\n" % (asleep.pid, started(asleep.pid) + 1, boot()),
                     b"%d %d %s\n" % (asleep.pid, started(asleep.pid), b"0" * 36)):
            clear(path)
            put(path, command.journal)
            put(path + ".lock", b"%d 5 %s\n" % (dead, boot()))
            put(path + ".lock.take", text)
            try:
                words = expect_held(bench, path, command, bench.bare)
            except Failed as why:
                raise Failed("a guard that holds %r:" % text, why)
            expect("%s.lock: %s" % (path, gone(dead)) in words, "with a guard that holds", text, "it says", words)
            expect(os.listdir(bench.folder) == ["journal"], "beside the journal is", os.listdir(bench.folder))
    finally:
        end_all([asleep])
        ended.wait()


@test
def a_guard_of_the_living(bench):
    path, dead, asleep = bench.path(), dead_number(), sleeper()
    try:
        for text in (holder(asleep.pid), b"%d\n" % asleep.pid):
            put_early(path, a_journal(8).journal)
            put_early(path + ".lock", b"%d 5 %s\n" % (dead, boot()))
            put_early(path + ".lock.take", text)
            before = picture(bench.folder)
            out, err = bench.bare.run(b"standing\n", path)
            expect(out == b"", "served:", shown(out))
            wanted = "%s.lock.take: process %d is taking the lock over\n" % (path, asleep.pid)
            expect(err.decode() == wanted, "standard error says", shown(err))
            expect_same(bench.folder, before)
    finally:
        end_all([asleep])


# ---- started at once ----

def start_at_a_word(bench, path):
    """A program that starts when a first line comes, so that many can start at once."""
    waiting = ["/bin/sh", "-c", 'read word; exec "$0" "$1"', bench.bare.path, path]
    return subprocess.Popen(waiting, stdin=subprocess.PIPE, stdout=subprocess.PIPE, stderr=subprocess.PIPE)


def opened_at_once(bench, path, count):
    """Starts programs at one moment; gives how many of them opened the journal while all lived."""
    processes = [start_at_a_word(bench, path) for _ in range(count)]
    for process in processes:
        os.write(process.stdin.fileno(), b"go\n")
    return opened_among(processes)


@test
def started_at_once(bench):
    def one(turn):
        path = bench.path("journal%d" % turn)
        count = opened_at_once(bench, path, 2)
        expect(count < 2, "both opened one journal, in turn", turn + 1)
        expect(count > 0, "neither opened the journal, in turn", turn + 1)
        expect_unlocked(path)
    side_by_side(one, [(turn,) for turn in range(24)], 3)


@test
def started_at_once_on_a_lock_of_the_dead(bench):
    def one(turn):
        path = bench.path("journal%d" % turn)
        put(path + ".lock", b"%d\n" % dead_number() if turn % 2 else b"%d 5 %s\n" % (dead_number(), boot()))
        count = opened_at_once(bench, path, 2 + turn % 3)
        expect(count < 2, count, "programs opened one journal, in turn", turn + 1)
        return count
    counts = side_by_side(one, [(turn,) for turn in range(24)], 3)
    if 0 in counts:
        bench.tell("in %d of 24 turns none opened" % counts.count(0))
