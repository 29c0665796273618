# Tests that kill the program at a random moment: what it acknowledged is there.

import os
import time

import chance as chances
import model
from bench import a_journal, clear, expect_held, expect_whole_around_fresh, survivors, test, torn_tail
from running import Failed, contents, expect, put, shown


def one_of(bench, turn):
    """The program to kill, mostly the bare one, and the seconds that it takes to start."""
    program = bench.bare if turn % 5 else bench.program
    if program.path not in bench.lags:
        began = time.monotonic()
        for _ in range(3):
            program.run(b"", bench.quick("lag"))
        bench.lags[program.path] = (time.monotonic() - began) / 3
    return program, bench.lags[program.path]


def one_kill(bench, turn, path, command, tail=b"", window=0.03):
    """Starts on the journal, streams changes in, kills, judges, opens again and looks at everything."""
    if tail:
        put(path, command.journal + tail)
        if not command.journal:
            command, tail = model.Command(tail), tail[1:]
    count = bench.chance.choice([0, 3, 100, 300])
    steps = chances.plan(bench.chance, command.copy(), count)
    if bench.chance.random() < 0.25:
        window = 0.004  # more kills while starting
    program, lag = one_of(bench, turn)
    delay = bench.chance.uniform(0, window) + bench.chance.choice([0.5, 1.0, 1.5]) * lag
    out, _ = program.killed(chances.lines_of(steps)[:60000], delay, path)
    command = survivors(path, command, steps, tail, out)
    locked = os.path.exists(path + ".lock")
    words = expect_held(bench, path, command, bench.bare)
    expect(words or not locked, "a lock was taken over without a word")
    return command, len(out.split(b"\n")) - 1


@test
def killed_at_any_moment(bench):
    # two journals in turn: one on the disk, and one where syncs are quick
    open_ones, journals, heard = {}, 0, []
    for turn in range(bench.kills):
        place = bench.path if turn % 2 else bench.quick
        command, path = open_ones.get(place, (None, None))
        if command is None or len(command.journal) > 60000:
            command, path, journals = model.Command(), place("journal%d" % journals), journals + 1
        tail = torn_tail(bench.chance, command) if bench.chance.random() < 0.15 else b""
        try:
            command, lines = one_kill(bench, turn, path, command, tail)
        except Failed as why:
            raise Failed("at kill", turn + 1, "with", len(command.journal), "bytes:", why)
        open_ones[place] = command, path
        heard.append(lines)
    bench.tell("%d kills, %d before the first line, %d answers heard, %d journals"
         % (bench.kills, heard.count(0), sum(heard), journals))
    for command, _ in open_ones.values():
        expect(model.restart(command.journal)[2].same(command.store), "the test's own model contradicts itself")


@test
def killed_while_opening_a_torn_tail(bench):
    command = a_journal()
    for turn in range(max(10, bench.kills // 6)):
        tail = torn_tail(bench.chance, command)
        command, _ = one_kill(bench, turn, bench.path(), command, tail, window=0.008)
        if len(command.journal) > 30000:
            command = a_journal()


@test
def killed_around_fresh(bench):
    """At every moment the old journal is whole under one of its two names."""
    path, old = bench.path(), bench.path("journal.old")
    for turn in range(max(10, bench.kills // 10)):
        before, line = a_journal(), b"commit 9 1=9"
        clear(path)
        put(path, before.journal)
        program, lag = one_of(bench, turn)
        program.killed(b"fresh\n" + line + b"\n", bench.chance.uniform(0, 0.015) + lag, path)
        expect_whole_around_fresh(bench, path, old, before, line, bench.bare)


@test
def killed_while_idle_between_lines(bench):
    """Every answer was read before the kill, so every change must be there."""
    command = model.Command()
    for turn in range(20):
        talk = one_of(bench, turn)[0].talk(bench.path())
        talk.line()
        for call, answer, _ in chances.plan(bench.chance, command, 5):
            got = talk.ask(model.line_of(*call))
            expect(got == answer, shown(model.line_of(*call)), "is answered", shown(got), "and not", answer)
        talk.kill()
        expect(contents(bench.path()) == command.journal, "an acknowledged change is not in the file")
        expect_held(bench, bench.path(), command, bench.bare)


@test
def killed_and_started_at_once(bench):
    """The one that was killed may still be on its way out: it is not waited for here, and its lock is taken over."""
    path, command = bench.path(), a_journal()
    put(path, command.journal)
    for turn in range(20):
        program = bench.bare if turn % 2 else bench.program
        talk = program.talk(path)
        talk.line()
        number = int(contents(path + ".lock").split()[0])
        talk.process.kill()
        try:
            words = expect_held(bench, path, command, program)
        finally:
            talk.kill()
        wanted = "%s.lock: process %d is gone; its lock is taken over" % (path, number)
        expect(words == [wanted], "standard error says", shown(words), "and should say", wanted)
