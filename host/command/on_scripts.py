# Tests of the script at the top: its words and statuses, the signals it passes on, and that the program never outlives it.

import fcntl
import os
import pty
import select
import shutil
import signal
import struct
import subprocess
import sys
import termios
import time

import chance as chances
import model
from bench import Skipped, expect_held, expect_unlocked, lines_in, opened, survivors, test
from on_terminals import until
from running import PATIENCE, Failed, Program, contents, drained, expect, put, shown

USAGE = b"usage: jibcradle [JOURNAL | --coordinator [FILE] | --demo | --records JOURNAL | --help | --version]\n"
ENDING = (signal.SIGHUP, signal.SIGINT, signal.SIGQUIT, signal.SIGTERM)


def heard_by_children():
    """Where these tests were started with signals ignored (nohup, or the background of a script), what they start would ignore them
    too. A handler that does nothing keeps them away from the tests alone, since a program begins with default signals for handled ones."""
    for number in ENDING:
        if signal.getsignal(number) == signal.SIG_IGN:
            signal.signal(number, lambda *_: None)


heard_by_children()


def script_of(bench):
    """The folder of the script under test."""
    folder = os.path.dirname(bench.program.path)
    if not os.path.exists(os.path.join(folder, "tools", "build")):
        raise Skipped("the program under test is not the script")
    return folder


def program_of(bench):
    return os.path.join(script_of(bench), "target", "bin", "jibcradle")


def expect_status(bench, wanted, data, *arguments, **options):
    status, out, err = bench.program.ended(data, *arguments, **options)
    expect(status == wanted, "status", status, "and should be", wanted, "for", shown(arguments), shown(data), shown(out), shown(err))
    return out, err


# ---- words and statuses ----

@test
def status_0_where_all_was_served(bench):
    script_of(bench)
    path = bench.path()
    expect_status(bench, 0, b"")
    expect_status(bench, 0, b"", path)
    expect_status(bench, 0, b"commit 100 0=7\ncommit 100 0=7\nnow 99\nnonsense\nread 1\n", path)
    expect_status(bench, 0, b"standing\n")
    out, _ = expect_status(bench, 0, b"quit\nnow 0\n", path)
    expect(out == opened(path, 0, 23).encode() + b"\n", "behind quit", shown(out))
    expect_status(bench, 0, b"", "--demo")
    out, _ = expect_status(bench, 0, b"", "--records", path)
    expect(out == b"commit 100 0=7  # 1 22\n# 23 end\n", "the records are", shown(out))
    put(path, b"\x02")
    expect_status(bench, 0, b"", "--records", path)


@test
def status_1_where_something_failed(bench):
    script_of(bench)
    path = bench.path()
    out, err = expect_status(bench, 1, b"now 0\n", bench.folder)
    expect(out == b"" and err, "a folder is answered", shown(out), shown(err))
    expect_status(bench, 1, b"now 0\n", bench.path("none/journal"))
    expect_status(bench, 1, b"", "--records", bench.path("none"))
    put(path, b"\x02")
    out, _ = expect_status(bench, 1, b"now 0\n", path)
    expect(out == b"refused %s: 15 2 Version\n" % path.encode(), "a refused journal is answered", shown(out))
    os.remove(path)
    first = bench.program.talk(path)
    first.line()
    expect_status(bench, 1, b"now 0\n", path)
    first.end()
    expect(first.process.returncode == 0, "the first has status", first.process.returncode)
    with open("/dev/full", "wb") as full:
        for arguments in ((), (path,), ("--records", path), ("--help",), ("--version",)):
            expect_status(bench, 1, b"now 0\n", *arguments, stdout=full)
        # a word for the first that can't be said, and no more
        for lines in (b"help\nnow 0\n", b"help codes\n", b"x\nx\n", b"no end", b"x" * 1048577):
            _, err = expect_status(bench, 1, lines, stdout=full)
            expect(err.count(b"\n") == 1 and err.startswith(b"standard output: "), shown(lines), "is followed by", shown(err))
    for number, word in ((0, b"standard input: Bad file descriptor\n"), (1, b"standard output: Bad file descriptor\n"), (2, b"")):
        out, err = expect_status(bench, 1, None, path, stdin=subprocess.DEVNULL, preexec_fn=lambda: os.close(number))
        expect((out, err) == (b"", word), "with descriptor", number, "closed", shown(out), shown(err))


@test
def status_2_for_bad_usage(bench):
    script_of(bench)
    for words in (["a", "b"], ["--demo", "a"], ["--help", "a"], ["--version", "a"], ["--what"], ["-"], ["-h"], ["--under", "1"], [""],
                  ["--records"], ["--records", ""], ["--records", "a", "b"], ["--records", "--demo"], ["a", "--demo"], ["", ""]):
        out, err = expect_status(bench, 2, b"now 0\n", *words, cwd=bench.folder)
        expect((out, err) == (b"", USAGE), "is answered", shown(out), shown(err), words)
    for name in ("n" * 4001, "\u00e9" * 2001):
        for words in ([name], ["--records", name]):
            out, err = expect_status(bench, 2, b"now 0\n", *words, cwd=bench.folder)
            expect((out, err) == (b"", name.encode() + b": the name is longer than 4000 bytes\n"), "is answered", shown(out), shown(err))
    expect(os.listdir(bench.folder) == [], "files were made:", os.listdir(bench.folder))


@test
def help_and_version(bench):
    script_of(bench)
    out, err = expect_status(bench, 0, None, "--help", stdin=subprocess.DEVNULL)
    said, _ = expect_status(bench, 0, b"help\n")
    coordinator, _ = expect_status(bench, 0, b"help\n", "--coordinator")
    whole = USAGE + said + b"With --coordinator:\n" + coordinator
    expect(out == whole and err == b"", "--help says", shown(out), "and help", shown(said), shown(coordinator))
    expect(len(said) > 500 and len(coordinator) > 300, "help says", shown(said), shown(coordinator))
    out, err = expect_status(bench, 0, None, "--version", stdin=subprocess.DEVNULL)
    expect((out, err) == (b"jibcradle 0.1.0, journal version 1\n", b""), "--version says", shown(out), shown(err))


@test
def called_from_any_folder_by_any_name(bench):
    top = script_of(bench)
    link, folder = bench.path("a link"), bench.path("a folder")
    os.symlink(bench.program.path, link)
    os.symlink(top, folder)
    near = os.path.relpath(bench.program.path, bench.folder)
    for words in ([link], ["./a link"], ["./a folder/jibcradle"], [near], ["bash", near], ["bash", "a folder/jibcradle"]):
        done = subprocess.run([*words, "journal"], input=b"now 0\n", capture_output=True, cwd=bench.folder, timeout=PATIENCE)
        expect(done.returncode == 0 and done.stdout.startswith(b"opened journal: 0 0 Done\n"), words, shown(done.stdout), shown(done.stderr))


# ---- signals ----

def served(bench, path, **options):
    """A script that has served a first commit, and the number of its program."""
    talk = bench.program.talk(path, **options)
    talk.line()
    expect(talk.ask("commit 100 0=7") == "0 23 Done", "not served")
    return talk, int(contents(path + ".lock").split()[0])


def lives(number):
    stat = contents("/proc/%d/stat" % number)
    return stat != b"" and stat.rpartition(b")")[2].split()[0] not in (b"Z", b"X")


def expect_ended_by(number, talk, program):
    """A signal to the script ends its program too, without a word, and the status tells its number."""
    expect(program != talk.pid, "the script became the program, and can give no status")
    talk.process.send_signal(number)
    talk.process.wait(timeout=10)
    expect(talk.process.returncode == 128 + number, "signal", number, "gives status", talk.process.returncode)
    expect(not lives(program), "the program lives on after signal", number)
    _, err = talk.end()
    expect(err == b"", "signal", number, "is followed by", shown(err))


@test
def signals_to_the_script_are_passed_on(bench):
    script_of(bench)
    for number in ENDING:
        path = bench.path("journal%d" % number)
        talk, program = served(bench, path)
        expect_ended_by(number, talk, program)
        expect_unlocked(path)
        words = expect_held(bench, path, model.Command(contents(path)))
        expect(not words, "the start after signal", number, "says", shown(words))


@test
def signals_to_the_program_are_told(bench):
    script_of(bench)
    for number in (*ENDING, signal.SIGKILL, signal.SIGSEGV):
        path = bench.path("journal%d" % number)
        talk, program = served(bench, path)
        os.kill(program, number)
        talk.process.wait(timeout=10)
        _, err = talk.end()
        expect(talk.process.returncode == 128 + number, "signal", number, "gives status", talk.process.returncode)
        expect(err == b"", "signal", number, "is followed by", shown(err))


@test
def a_signal_at_any_moment_of_the_start(bench):
    """The script ends, by the signal or with its status, and the program with it."""
    script_of(bench)
    for turn in range(60):
        # not SIGQUIT: bash itself ignores it until the script has set its trap
        path, number = bench.path("journal%d" % turn), (signal.SIGHUP, signal.SIGINT, signal.SIGTERM)[turn % 3]
        process = bench.program.start(path)
        time.sleep(bench.chance.uniform(0, 0.05))
        process.send_signal(number)
        try:
            process.wait(timeout=10)
        except subprocess.TimeoutExpired:
            process.kill()
            expect(False, "signal", number, "in the start is lost")
        drained(process)
        expect(process.returncode in (-number, 128 + number), "signal", number, "gives status", process.returncode)


@test
def a_signal_while_the_child_still_ignores_it(bench):
    """A stub holds the start where bash has SIGINT ignored in what it starts."""
    script_of(bench)
    env = stub(bench, "env", 'sleep 0.3\nexec %s "$@"\n' % shutil.which("env"))
    process = subprocess.Popen(["bash", bench.program.path], stdin=subprocess.PIPE, stdout=subprocess.PIPE, stderr=subprocess.PIPE, env=env)
    time.sleep(0.2)
    process.send_signal(signal.SIGINT)
    process.wait(timeout=10)
    drained(process)
    expect(process.returncode == 130, "status", process.returncode)


def ignored_by(process):
    line = [line for line in contents("/proc/%d/status" % process).split(b"\n") if line.startswith(b"SigIgn")][0]
    return {number for number in range(1, 65) if int(line.split()[1], 16) >> number - 1 & 1}


@test
def what_was_ignored_at_the_start_stays_ignored(bench):
    script_of(bench)
    for turn, numbers in enumerate([(), *((number,) for number in ENDING), (signal.SIGINT, signal.SIGQUIT)]):
        path = bench.path("journal%d" % turn)
        talk, program = served(bench, path, preexec_fn=lambda: [signal.signal(number, signal.SIG_IGN) for number in numbers])
        expect(ignored_by(program) & set(ENDING) == set(numbers), "ignored are", ignored_by(program), "and should be", numbers)
        for number in numbers:
            os.kill(program, number)
            talk.process.send_signal(number)
        expect(talk.ask("commit 101 0=8") == "0 45 Done", "ended by an ignored signal", numbers)
        talk.end()
        expect(talk.process.returncode == 0, "status", talk.process.returncode, "after ignored signals", numbers)


def heard_lines(process, count):
    """So many answers of a program, and what came with them."""
    heard = b""
    while heard.count(b"\n") < count:
        ready, _, _ = select.select([process.stdout], [], [], PATIENCE)
        more = os.read(process.stdout.fileno(), 4096) if ready else b""
        if not more:
            process.kill()
            raise Failed("ended or stuck with", shown(heard), shown(process.stderr.read()))
        heard += more
    return heard


@test
def killed_with_the_script_and_started_again_at_once(bench):
    """Nothing waits between the script's end and the next start: never locked out, nothing acknowledged lost."""
    script_of(bench)
    path, command = bench.quick(), model.Command()
    process, early = bench.program.start(path), 0
    for turn in range(200):
        steps = chances.plan(bench.chance, command.copy(), 8)
        os.write(process.stdin.fileno(), chances.lines_of(steps))
        wanted = bench.chance.choice([0, 1, 1, 2, 4, 8])
        heard = heard_lines(process, wanted)
        if wanted == 0:
            time.sleep(bench.chance.uniform(0, 0.05))
        process.kill()
        again = bench.program.start(path)
        out, _ = drained(process)
        early += heard + out == b""
        command = survivors(path, command, steps, b"", heard + out)
        process = again
    out, err = process.communicate(b"", timeout=PATIENCE)
    expect(lines_in(out) == [opened(path, 0, len(command.journal))], "at last", shown(out), shown(err))
    expect_held(bench, path, command)
    bench.tell("%d of 200 before the first line, %d bytes" % (early, len(command.journal)))


@test
def the_program_has_its_four_descriptors_and_no_more(bench):
    script_of(bench)
    talk, program = served(bench, bench.path())
    held = {int(name): os.readlink("/proc/%d/fd/%s" % (program, name)) for name in os.listdir("/proc/%d/fd" % program)}
    pipes = [os.readlink("/proc/self/fd/%d" % pipe.fileno()) for pipe in (talk.process.stdin, talk.process.stdout, talk.process.stderr)]
    expect([held.get(number) for number in (0, 1, 2)] == pipes, "the standard ones are", held, "and should be", pipes)
    rest = sorted(name for name in held.values() if name not in pipes)
    expect(len(rest) == 2 and rest[0] == bench.path() and rest[1] == held[3], "besides it has", held)
    talk.end()


@test
def the_same_verdict_under_nohup(bench):
    """A test of signals, started with all of them ignored."""
    script_of(bench)
    tests = os.path.join(os.path.dirname(os.path.abspath(__file__)), "test_command.py")
    words = [sys.executable, tests, bench.program.path, "--only", "signals to the"]

    def deaf():
        for number in ENDING:
            signal.signal(number, signal.SIG_IGN)
    done = subprocess.run(words, capture_output=True, stdin=subprocess.DEVNULL, preexec_fn=deaf, timeout=2 * PATIENCE)
    expect(done.returncode == 0 and b"command: 2 passed, 0 failed" in done.stdout, shown(done.stdout), shown(done.stderr))


# ---- terminals ----

def on_a_terminal_of(words, width=80, **options):
    """A process at the head of a terminal of its own."""
    master, slave = pty.openpty()
    fcntl.ioctl(slave, termios.TIOCSWINSZ, struct.pack("HHHH", 24, width, 0, 0))

    def own():
        fcntl.ioctl(0, termios.TIOCSCTTY, 0)
    process = subprocess.Popen(words, stdin=slave, stdout=slave, stderr=slave, start_new_session=True, preexec_fn=own, **options)
    os.close(slave)
    return master, process


def until_prompt(master, text):
    """Reads from a terminal until a text has come, and a prompt behind it."""
    said = until(master, text)
    if b"> " not in said.rpartition(text)[2]:
        until(master, b"> ")


def path_without(bench, *missing):
    """A PATH with all commands but some."""
    folder = bench.path("bin without " + " ".join(missing))
    os.mkdir(folder)
    for name in ("bash", "env", "setpriv", "find", "sleep", "stty", "rlwrap", "readlink", "sed", "cp", "mkdir", "touch", "sort", "wc",
                 "rm", "setsid", "flock", "sh"):
        found = shutil.which(name)
        if found and name not in missing:
            os.symlink(found, os.path.join(folder, name))
    return dict(os.environ, PATH=folder)


def stub(bench, name, text):
    """A PATH on which a command of our own stands first."""
    folder = bench.path("stub " + name)
    os.mkdir(folder)
    put(os.path.join(folder, name), b"#!/bin/sh\n" + text.encode())
    os.chmod(os.path.join(folder, name), 0o755)
    return dict(os.environ, PATH=folder + ":" + os.environ["PATH"], HOME=bench.folder, TERM="xterm")


def status_after(bench, key, env):
    """The status where a key is pressed at the prompt, behind a first commit."""
    path = bench.path("journal at key %d" % ord(key))
    master, process = on_a_terminal_of([bench.program.path, path], env=env)
    until_prompt(master, b"opened")
    os.write(master, b"commit 100 0=7\n")
    until_prompt(master, b"0 23 Done")
    os.write(master, key)
    try:
        process.wait(timeout=10)
    finally:
        process.kill()
        os.close(master)
    expect_unlocked(path)
    expect_held(bench, path, model.Command(contents(path)))
    return process.returncode


@test
def keys_on_a_terminal(bench):
    script_of(bench)
    env = path_without(bench, "rlwrap")
    for turn, (key, wanted) in enumerate([(b"\x04", 0), (b"\x03", 130), (b"\x1c", 131)] * 3):
        status = status_after(bench, key, env)
        expect(status == wanted, "key", key, "gives status", status, "in turn", turn + 1)
        os.remove(bench.path("journal at key %d" % ord(key)))


def stopped_and_gone_on(bench, env):
    """A shell with job control: Ctrl-Z stops script and program, fg lets both go on."""
    path = bench.path("journal that is stopped")
    shell = 'set -m; "$0" "$1"; echo "stopped with $?"; fg >/dev/null; echo "ended with $?"'
    master, process = on_a_terminal_of(["bash", "-c", shell, bench.program.path, path], env=env)
    try:
        until_prompt(master, b"opened")
        os.write(master, b"\x1a")
        until(master, b"stopped with 148")
        time.sleep(0.1)
        os.write(master, b"commit 100 0=7\n")
        until_prompt(master, b"0 23 Done")
        os.write(master, b"\x04")
        until(master, b"ended with 0")
        process.wait(timeout=10)
    finally:
        process.kill()
        os.close(master)


@test
def stopped_on_a_terminal(bench):
    script_of(bench)
    stopped_and_gone_on(bench, path_without(bench, "rlwrap"))


# ---- rlwrap, and what may be missing ----

@test
def rlwrap_on_a_terminal_alone(bench):
    script_of(bench)
    note = bench.path("note")
    env = stub(bench, "rlwrap", 'echo "$@" >>"%s"\nshift 2\nexec "$@"\n' % note)
    expect(status_after(bench, b"\x04", env) == 0, "Ctrl-D does not give 0")
    expect(contents(note).startswith(b"-C jibcradle "), "rlwrap was called with", contents(note))
    os.remove(note)
    expect(status_after(bench, b"\x03", env) == 130, "Ctrl-C does not give 130")
    os.remove(note)
    for words, width in (([bench.folder], 80), (["--demo"], 80), ([], 0)):
        master, process = on_a_terminal_of([bench.program.path, *words], width, env=env)
        os.write(master, b"\x04")
        process.wait(timeout=10)
        os.close(master)
        expect(process.returncode == (words == [bench.folder]), words, "gives status", process.returncode)
        expect(os.path.exists(note) == (words == [bench.folder]), words, "in width", width, "uses rlwrap:", contents(note))
        if os.path.exists(note):
            os.remove(note)
    expect_status(bench, 0, b"now 0\n", env=env)
    expect(not os.path.exists(note), "a pipe goes by rlwrap")


@test
def the_real_rlwrap(bench):
    script_of(bench)
    if shutil.which("rlwrap") is None:
        raise Skipped("there is no rlwrap here")
    env = dict(os.environ, HOME=bench.folder, TERM="xterm")
    for key, wanted in ((b"\x04", 0), (b"\x03", 130)):
        status = status_after(bench, key, env)
        expect(status == wanted, "key", key, "gives status", status)
    stopped_and_gone_on(bench, env)
    path = bench.path("journal of a killed script")
    master, process = on_a_terminal_of([bench.program.path, path], env=env)
    until_prompt(master, b"opened")
    program = int(contents(path + ".lock").split()[0])
    process.kill()
    process.wait()
    limit = time.monotonic() + 10
    while lives(program) and time.monotonic() < limit:
        time.sleep(0.01)
    os.close(master)
    expect(not lives(program), "the program lives on behind rlwrap")


@test
def without_what_the_script_starts_with(bench):
    """The program is served all the same, only without its status."""
    script_of(bench)
    old = 'case $1 in --default-signal*) echo "env: unrecognized option" >&2; exit 125 ;; esac\nexec %s "$@"\n' % shutil.which("env")
    cases = {"no setpriv": path_without(bench, "setpriv"), "no env": path_without(bench, "env"), "an old env": stub(bench, "env", old),
             "an old setpriv": stub(bench, "setpriv", 'echo "setpriv: unrecognized option" >&2; exit 1\n')}
    for turn, (name, env) in enumerate(cases.items()):
        path = bench.path("journal%d" % turn)
        status, out, err = Program(shutil.which("bash")).ended(b"commit 100 0=7\n", bench.program.path, path, env=env)
        expect(lines_in(out) == [opened(path, 0, 0), "0 23 Done"] and status == 0, name, "gives", status, shown(out), shown(err))
        expect(contents(path) != b"" and not os.path.exists(path + ".lock"), name, "leaves no journal, or a lock")
