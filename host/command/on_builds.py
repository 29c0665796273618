# Tests of what the script does before it starts the program: when it builds, what it shows, and how a build ends.
# A small repository is copied for each, where a stub stands for rt, so that no prover runs.

import os
import re
import shutil
import signal
import subprocess
import time

from bench import Skipped, opened, test
from on_files import NOBODY
from on_scripts import USAGE, lives, on_a_terminal_of, path_without, program_of, script_of, stub
from on_terminals import until
from running import PATIENCE, Program, contents, expect, put, shown

# Says what rt says in a crate's folder, and proves nothing. Files in the repository tell it to fail, to be slow, to hang, or to find a
# source changed.
RT = """
cd ../..
echo "$*" >>called
sum=$(cat crates.txt crates/*/src/* | cksum)
echo "fn $2::some: proved"
if [ -e fails ] && [ $2 = tables ]; then echo "fn $2::other: not proved"; exit 1; fi
echo "logic=proved functions=1"
[ $1 = run ] || exit 0
[ ! -e slow ] || sleep 0.7
[ ! -e edited ] || touch crates/jibcradle/src/help.rt
out=crates/$2/out
mkdir -p $out
if [ "$(cat $out/$2.stamp 2>&1)" != "$sum" ]; then
    rm -f $out/$2.stamp
    cp %s/$2 $out/$2
    if [ -e hangs ]; then
        sleep 600 & echo $! >>provers
        (sleep 600 & echo $! >>provers; wait) & echo $! >>provers
        touch started
        wait
    fi
    echo "$sum" >$out/$2.stamp
fi
echo "rt: running out/$2; to give it other input, run that file yourself"
"""


class Repository:
    """A copy of the script and of little more, and the words that its stub of rt was called with."""

    def __init__(self, bench):
        self.top, self.path = script_of(bench), bench.path("repository")
        for name in ("jibcradle", "tools/build", "crates.txt", "crates/jibcradle/src/help.rt", "crates/coordinating/src/help.rt"):
            os.makedirs(os.path.dirname(self.file(name)), exist_ok=True)
            shutil.copy(os.path.join(self.top, name), self.file(name))
        listed = contents(self.file("crates.txt")).decode()
        self.crates, self.coordinators = crates_in_order(listed, "jibcradle"), crates_in_order(listed, "coordinating")
        for name in self.crates + self.coordinators:
            os.makedirs(self.file("crates/%s/src" % name), exist_ok=True)
        self.env = stub(bench, "rt", RT % os.path.dirname(program_of(bench)))
        self.script = Program(self.file("jibcradle"))

    def file(self, name):
        return os.path.join(self.path, name)

    def builds(self, name="jibcradle"):
        return contents(self.file("called")).count(b"run %s\n" % name.encode())

    def run(self, data, *arguments, **options):
        return self.script.ended(data, *arguments, env=options.pop("env", self.env), **options)

    def expect_served(self, builds, about):
        status, out, err = self.run(b"standing\n")
        expect(status == 0 and out == b"0 0 Done 0 0 0 0 0\n", about, "status", status, shown(out), shown(err))
        expect(self.builds() == builds, about, "it was built", self.builds(), "times, and should be", builds)
        return err

    def expect_coordinated(self, builds, about):
        status, out, err = self.run(b"granted\n", "--coordinator")
        expect(status == 0 and out == b"0 0 Done 0 0\n", about, "status", status, shown(out), shown(err))
        expect(self.builds("coordinating") == builds, about, "it was built", self.builds("coordinating"), "times, and should be", builds)
        return err


def crates_in_order(text, program):
    """The crates that a program is built of, as rt proves them: by their depth, and those of one depth as they are reached."""
    needs, depth = {}, {}
    for line in text.split("\n"):
        name, colon, rest = line.partition("#")[0].partition(":")
        if colon:
            needs[name.strip()] = rest.split()

    def visit(name):
        below = [one for one in needs[name] if one in needs]
        for one in below:
            if one not in depth:
                visit(one)
        depth[name] = 1 + max([depth[one] for one in below], default=-1)
    visit(program)
    return sorted(depth, key=depth.get)


def progress(crates):
    return ["building, proved crate by crate: %d of %d, %s .. (some 8 minutes the first time)" % (at + 1, len(crates), crate)
            for at, crate in enumerate(crates)]


@test
def a_build_in_a_pipe(bench):
    repository = Repository(bench)
    expect(len(repository.crates) > 10, "the test's own list is", repository.crates)
    err = repository.expect_served(1, "at first")
    expect(err.decode().split("\n") == progress(repository.crates) + [""], "the build says", shown(err))
    log = contents(repository.file("target/build.log"))
    expect(b"fn model::some: proved\nlogic=proved functions=1\n" in log and b"running out/jibcradle" in log, "the log has", shown(log))
    expect(repository.expect_served(1, "then") == b"", "a second start says something")


@test
def a_build_on_a_terminal(bench):
    """One line in place, which is gone when the program starts; where a terminal can't do that, a line a crate."""
    repository, path = Repository(bench), bench.path()
    lines = progress(repository.crates)
    in_place = "".join("\r\x1b[K\x1b[?7l%s\x1b[?7h" % line for line in lines) + "\r\x1b[K"
    for terminal, wanted in (("xterm", in_place), ("dumb", "".join(line + "\r\n" for line in lines))):
        master, process = on_a_terminal_of([repository.script.path, path], width=0, env=dict(repository.env, TERM=terminal))
        said = until(master, b"> ").decode()
        os.write(master, b"\x04")
        process.wait(timeout=10)
        os.close(master)
        wanted += opened(path, 0, 0) + "\r\n> "
        expect(said == wanted, "on", terminal, "is shown", shown(said), "and should be", shown(wanted))
        os.remove(repository.file("target/bin/jibcradle"))


@test
def a_build_that_fails(bench):
    repository = Repository(bench)
    put(repository.file("fails"), b"")
    log = repository.file("target/build.log")
    for turn in (1, 2):
        status, out, err = repository.run(b"standing\n")
        expect((status, out) == (1, b""), "a failed build gives", status, shown(out))
        last = err.decode().split("\n")[-2]
        expect(last == "jibcradle: the build failed; %s says why" % os.path.realpath(log), "the last line is", last)
        expect(b"fn tables::other: not proved" in contents(log), "the log has", shown(contents(log)))
    os.remove(repository.file("fails"))
    repository.expect_served(1, "mended")
    tried = contents(repository.file("called")).count(b"lib tables\n")
    expect(tried == 3, "the crate that failed was tried", tried, "times")


@test
def a_build_without_rt(bench):
    repository = Repository(bench)
    bash = shutil.which("bash")
    status, out, err = Program(bash).ended(b"standing\n", repository.script.path, env=path_without(bench, "rt"))
    expect((status, out) == (1, b""), "without rt", status, shown(out))
    expect(err == b"jibcradle: it has to be built first, and the Rattle kit's rt isn't on the PATH\n", "without rt", shown(err))


@test
def a_build_in_a_folder_that_cannot_be_written(bench):
    if os.geteuid() != 0:
        raise Skipped("only root can become another user")
    repository = Repository(bench)
    if not others_may_run(repository.script.path):
        raise Skipped("another user can't reach the folder")
    where = os.path.realpath(repository.path)
    words = dict(user=NOBODY, group=NOBODY, extra_groups=[])
    wanted = b"jibcradle: it has to be built first, and %s can't be written\n" % where.encode()
    for turn in (1, 2):
        status, out, err = repository.run(b"standing\n", **words)
        expect((status, out, err) == (1, b"", wanted), "as another user", status, shown(out), shown(err))
        os.makedirs(repository.file("target"), exist_ok=True)
    expect(repository.builds() == 0, "rt was called")
    repository.expect_served(1, "as root")
    status, out, err = repository.run(b"standing\n", **words)
    expect((status, err) == (0, b""), "once it is built", status, shown(out), shown(err))


def others_may_run(path):
    done = subprocess.run(["test", "-x", path], user=NOBODY, group=NOBODY, extra_groups=[])
    return done.returncode == 0


def expect_ended(repository, process, status, about):
    """The build that hangs has ended, and all that it had started."""
    process.wait(timeout=10)
    expect(process.returncode == status, about, "gives status", process.returncode)
    provers = [int(number) for number in contents(repository.file("provers")).split()]
    limit = time.monotonic() + 10
    while any(map(lives, provers)) and time.monotonic() < limit:
        time.sleep(0.01)
    expect(len(provers) == 3 and not any(map(lives, provers)), about, "leaves provers:", [n for n in provers if lives(n)])
    for name in ("provers", "started"):
        os.remove(repository.file(name))


def until_started(repository):
    """The provers are at work, and all three have told their numbers."""
    limit = time.monotonic() + 10
    while not os.path.exists(repository.file("started")) or contents(repository.file("provers")).count(b"\n") < 3:
        expect(time.monotonic() < limit, "the build never starts")
        time.sleep(0.01)


@test
def ended_while_it_builds(bench):
    """The provers end too, and the next start builds again, though a program is there."""
    repository = Repository(bench)
    put(repository.file("hangs"), b"")
    master, process = on_a_terminal_of([repository.script.path], env=repository.env)
    until(master, b"%d of %d" % (len(repository.crates), len(repository.crates)))
    until_started(repository)
    os.write(master, b"\x03")
    expect_ended(repository, process, 130, "Ctrl-C")
    os.close(master)
    for number in (signal.SIGTERM, signal.SIGHUP, signal.SIGINT):
        process = repository.script.start(env=repository.env)
        until_started(repository)
        process.send_signal(number)
        expect_ended(repository, process, 128 + number, "signal %d" % number)
        process.communicate()
    expect(os.path.exists(repository.file("crates/jibcradle/out/jibcradle")), "the test's own stub made no program")
    os.remove(repository.file("hangs"))
    repository.expect_served(5, "after builds that were ended")
    repository.expect_served(5, "then")


@test
def words_that_build_nothing(bench):
    repository = Repository(bench)
    for words, status in ((["--help"], 0), (["--version"], 0), (["--what"], 2), (["a", "b"], 2), ([""], 2), (["--records"], 2), (["n" * 4001], 2),
                          (["\u00e9" * 2001], 2), (["--coordinator", ""], 2), (["--coordinator", "--demo"], 2), (["--coordinator", "a", "b"], 2)):
        got, out, err = repository.run(b"", *words, env=dict(repository.env, LC_ALL="C.UTF-8"))
        expect(got == status, words, "gives status", got, shown(out), shown(err))
    expect(repository.builds() == 0 and not os.path.exists(repository.file("target")), "something was built")
    got, out, _ = repository.run(b"", "--help")
    texts = ["With --coordinator:"]
    for name in ("jibcradle", "coordinating"):
        texts += re.findall(r'b"(.*)\\n"', contents(repository.file("crates/%s/src/help.rt" % name)).decode())
    expect(out.startswith(USAGE) and len(out.split(b"\n")) > 20, "--help says", shown(out))
    expect(set(out.decode().split("\n")[1:-1]) <= set(texts), "--help says", shown(out))


@test
def built_again_where_it_is_old(bench):
    repository = Repository(bench)
    repository.expect_served(1, "at first")
    later = time.time() + 5
    for name, builds in (("crates.txt", 2), ("crates/jibcradle/src/help.rt", 3)):
        os.utime(repository.file(name), (later, later))
        repository.expect_served(builds, "with a later " + name)
        os.utime(repository.file(name), (1, 1))
        repository.expect_served(builds, "with an earlier " + name)
    put(repository.file("crates/jibcradle/NOTES.md"), b"no source")
    repository.expect_served(3, "with a file that is no source")
    os.remove(repository.file("target/bin/jibcradle"))
    repository.expect_served(4, "with the program removed")
    put(repository.file("edited"), b"")
    os.utime(repository.file("crates.txt"), (time.time() + 1, time.time() + 1))
    repository.expect_served(5, "with a source that changes while it is built")
    os.remove(repository.file("edited"))
    os.utime(repository.file("crates.txt"), (1, 1))
    repository.expect_served(6, "after a source has changed while it was built")
    repository.expect_served(6, "then")


@test
def two_builds_at_once(bench):
    if shutil.which("flock") is None:
        raise Skipped("there is no flock here")
    repository = Repository(bench)
    put(repository.file("slow"), b"")
    processes = [repository.script.start(env=repository.env) for _ in range(3)]
    said = [process.communicate(b"standing\n", timeout=PATIENCE) for process in processes]
    expect([process.returncode for process in processes] == [0, 0, 0], "status", [process.returncode for process in processes], shown(said))
    expect(repository.builds() == 1, "it was built", repository.builds(), "times")
    waiting = [err for _, err in said if err == b"jibcradle: waiting for the build that is under way\n"]
    expect(len(waiting) == 2 or b"" in [err for _, err in said], "they say", shown(said))


@test
def each_program_is_built_by_itself(bench):
    """The coordinator's when it is first asked for, of its own crates, and again where it is old."""
    repository = Repository(bench)
    repository.expect_served(1, "the repository's")
    expect(not os.path.exists(repository.file("target/bin/coordinating")), "the coordinator's was built for the repository's")
    err = repository.expect_coordinated(1, "the coordinator's")
    expect(err.decode().split("\n") == progress(repository.coordinators) + [""], "the build says", shown(err))
    expect(repository.expect_coordinated(1, "then") == b"" and repository.expect_served(1, "then") == b"", "a second start says something")
    os.remove(repository.file("target/bin/coordinating"))
    repository.expect_coordinated(2, "with the program removed")
    repository.expect_served(1, "with the other removed")
    later = time.time() + 5
    os.utime(repository.file("crates/coordinating/src/help.rt"), (later, later))
    repository.expect_coordinated(3, "with a later source")
    os.utime(repository.file("crates/coordinating/src/help.rt"), (1, 1))
    expect(repository.expect_coordinated(3, "then") == b"", "a second start says something")
