# Tests on a terminal, in a pipe, and of signals.

import os
import pty
import select
import signal
import termios
import time

import model
from bench import expect_held, expect_unlocked, opened, test
from running import contents, expect, shown


def until(master, wanted, patience=10.0):
    """Reads from a terminal until a text has come."""
    said, limit = b"", time.monotonic() + patience
    while wanted not in said:
        ready, _, _ = select.select([master], [], [], max(0.0, limit - time.monotonic()))
        expect(ready, "the terminal shows", shown(said), "and never", shown(wanted))
        try:
            more = os.read(master, 4096)
        except OSError:
            more = b""
        expect(more, "the terminal ended with", shown(said), "and never showed", shown(wanted))
        said += more
    return said


def at_a_terminal(bench, *arguments):
    master, slave = pty.openpty()
    modes = termios.tcgetattr(slave)
    modes[3] &= ~termios.ECHO
    termios.tcsetattr(slave, termios.TCSANOW, modes)

    def own_terminal():
        import fcntl
        fcntl.ioctl(0, termios.TIOCSCTTY, 0)
    process = bench.program.start(*arguments, stdin=slave, stdout=slave, stderr=slave,
                                  start_new_session=True, preexec_fn=own_terminal)
    os.close(slave)
    return master, process


def expect_typed(master, process, path, rows):
    """The first line, each line's answer as a person sees it, and the end by Ctrl-D."""
    said = until(master, b"> ")
    expect(said == opened(path, 0, 0).encode() + b"\r\n> ", "the terminal first shows", shown(said))
    for line, answer in rows:
        os.write(master, line + b"\n")
        said = until(master, b"> ")
        expect(said == answer + b"\r\n" * bool(answer) + b"> ", shown(line), "is answered on a terminal with", shown(said))
    os.write(master, b"\x04")
    process.wait(timeout=10)
    os.close(master)


@test
def on_a_terminal(bench):
    path = bench.path()
    master, process = at_a_terminal(bench, path)
    expect_typed(master, process, path, (
        (b"commit 100 0=7", b"0 23 Done"), (b"", b""), (b"now 0", b"0 0 Done 7" + b" 0" * 15),
        (b"nonsense", b"? no such call at line 4 column 1; help lists them")))
    expect_unlocked(path)
    expect_held(bench, path, model.Command(contents(path)))


@test
def interrupted_on_a_terminal(bench):
    path = bench.path()
    master, process = at_a_terminal(bench, path)
    until(master, b"> ")
    os.write(master, b"commit 100 0=7\n")
    until(master, b"> ")
    os.write(master, b"\x03")
    process.wait(timeout=10)
    os.close(master)
    expect_held(bench, path, model.Command(b"\x01" + model.record("commit", (100, [(0, 7)]))))


@test
def quit_on_a_terminal(bench):
    for word in (b"quit", b"exit"):
        path = bench.path(word.decode())
        master, process = at_a_terminal(bench, path)
        until(master, b"> ")
        os.write(master, b"commit 100 0=7\n")
        until(master, b"> ")
        os.write(master, word + b"\n")
        process.wait(timeout=10)
        os.close(master)
        expect_unlocked(path)
        expect_held(bench, path, model.Command(b"\x01" + model.record("commit", (100, [(0, 7)]))))


@test
def names_of_the_figures_on_a_terminal(bench):
    """Behind standing's answer, where standard output is a terminal, whatever the input is."""
    names = b"# pending, past, snapshots, copies, lag\r\n"
    master, process = at_a_terminal(bench)
    until(master, b"> ")
    for line, answer in ((b"standing", b"0 0 Done 0 0 0 0 0\r\n" + names), (b"commit 300 0=7", b"0 23 Done\r\n"),
                         (b" standing # now", b"0 0 Done 1 0 0 0 1\r\n" + names), (b"known", b"0 0 Done 0 300\r\n"),
                         (b"standing 5", b"? a word too many at line 5 column 10\r\n")):
        os.write(master, line + b"\n")
        said = until(master, b"> ")
        expect(said == answer + b"> ", shown(line), "is answered on a terminal with", shown(said))
    os.write(master, b"quit\n")
    process.wait(timeout=10)
    os.close(master)
    master, slave = pty.openpty()
    process = bench.program.start(stdout=slave)
    os.close(slave)
    process.stdin.write(b"now 0\nstanding\n")
    process.stdin.close()
    said = until(master, names)
    expect(said == b"0 0 Done" + b" 0" * 16 + b"\r\n0 0 Done 0 0 0 0 0\r\n" + names, "a terminal fed by a pipe shows", shown(said))
    process.wait(timeout=10)
    os.close(master)


@test
def no_names_of_the_figures_in_a_pipe(bench):
    out, err = bench.program.run(b"standing\n")
    expect((out, err) == (b"0 0 Done 0 0 0 0 0\n", b""), "said in a pipe:", shown(out), shown(err))
    master, slave = pty.openpty()
    process = bench.program.start(stdin=slave, stderr=slave)
    os.close(slave)
    os.write(master, b"standing\n\x04")
    said, _ = process.communicate(timeout=10)
    os.close(master)
    expect(said.replace(b"> ", b"") == b"0 0 Done 0 0 0 0 0\n", "said in a pipe from a terminal:", shown(said))


@test
def ended_by_the_usual_signals(bench):
    """The program itself; and the script, which passes them on."""
    for number in (signal.SIGTERM, signal.SIGINT, signal.SIGHUP):
        for name, program in (("script", bench.program), ("bare", bench.bare)):
            path = bench.path("%s%d" % (name, number))
            talk = program.talk(path)
            talk.line()
            expect(talk.ask("commit 100 0=7") == "0 23 Done", "not served")
            talk.process.send_signal(number)
            talk.process.wait(timeout=10)
            talk.end()
            expect_held(bench, path, model.Command(contents(path)))


@test
def no_prompt_in_a_pipe(bench):
    out, err = bench.program.run(b"now 0\n", bench.path())
    expect(b"> " not in out and err == b"", "said in a pipe:", shown(out), shown(err))
    out, err = bench.program.run(b"now 0\n")
    expect(out == b"0 0 Done" + b" 0" * 16 + b"\n" and err == b"", "said in a pipe:", shown(out), shown(err))
