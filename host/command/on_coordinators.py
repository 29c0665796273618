# Tests of the coordinator's command: its lines and answers, its lock, signals, statuses, a terminal.

import os
import signal
import subprocess

import chance as chances
import model
from bench import (
    TESTS, answered, boot, clear, dead_number, expect_lines, expect_same, expect_unlocked, holder, lines_in, opened, opened_among,
    picture, put_early, side_by_side, test)
from on_lines import LINES
from on_locks import NOBODY_THERE, end_all, gone, held_word, number_in, own_folder, sleeper
from on_scripts import ENDING, USAGE, expect_ended_by, expect_status, script_of
from on_terminals import at_a_terminal, expect_typed
from running import PATIENCE, contents, expect, put, shown

MOST = 2 ** 64 - 1

# ---- what they have in common ----

def expect_left(path):
    """After the end only the file itself is left."""
    expect_unlocked(path)
    expect(not os.path.lexists(path + ".new"), path + ".new", "is still there after the end")


def expect_coordinated(bench, lines, path=None, program=None):
    """Runs lines of bytes, in memory or on a file, and holds every answer and the file against the model."""
    command = model.Coordinating(contents(path) if path else b"")
    expect(command.code == model.DONE, "the test's own file is", shown(command.file))
    place = command.place
    wanted, asked = answered(command, lines)
    out, err = (program or bench.coordinator).run(b"".join(line + b"\n" for line in lines), *([path] if path else []))
    got = lines_in(out)
    if path:
        expect(got[:1] == [opened(path, model.DONE, place)], "the first line is", shown(got[:1]), shown(err))
        got = got[1:]
    expect_lines(got, wanted, asked)
    expect(err == b"", "standard error says", shown(err))
    if path:
        expect(contents(path) == command.file, "the file is", shown(contents(path)), "and should be", shown(command.file))
        expect_left(path)
    return command


def expect_answers(bench, pairs, path=None):
    """Lines with the answers that they must have; the model must say the same."""
    lines, wanted = [line.encode() for line, _ in pairs], [answer for _, answer in pairs]
    expect_lines(answered(model.Coordinating(contents(path) if path else b""), lines)[0], wanted, lines)
    return expect_coordinated(bench, lines, path)


def a_coordinator(count=20):
    """A command that has granted so many stamps, and sent some messages."""
    command = model.Coordinating()
    for at in range(count):
        command.call("grant", (at + 1, at % 7))
        if at % 3 == 0:
            command.call("message", (0, 256 * at + 300))
    return command


def next_grant(command, more=1):
    """The line of a grant that is done."""
    return model.line_of("grant", divmod(command.coordinator.top() + more, 256))


def expect_kept(bench, path, command, program=None):
    """Opens a file that must hold the model's state. Gives the words on standard error."""
    out, err = (program or bench.bare_coordinator).run(b"granted\n", path)
    place = len(command.file)
    expect_lines(lines_in(out), [opened(path, model.DONE, place), command.call("granted", ())])
    expect(contents(path) == command.file, "the file is", shown(contents(path)), "and should be", shown(command.file))
    expect_unlocked(path)
    return lines_in(err)


def expect_quietly_kept(bench, path, command, program=None):
    words = expect_kept(bench, path, command, program)
    expect(words == [], "standard error says", shown(words))


def told(prev, curr, stamps):
    """The answer that shows a message."""
    data = model.record("gossip", (prev, curr, stamps))
    return "0 %d Done %s" % (len(data), data.hex())


# ---- lines and answers ----

def file_of_orders(name):
    def run(bench):
        orders = contents(os.path.join(LINES, name + ".orders.txt"))
        answers = lines_in(contents(os.path.join(LINES, name + ".answers.txt")))
        asked = [line for line in orders.split(b"\n") if line.split(b"#")[0].strip()]
        out, err = bench.coordinator.run(orders)
        expect_lines(lines_in(out), answers, asked)
        expect(err == b"", "standard error is not empty:", shown(err))
        expect_coordinated(bench, orders.split(b"\n")[:-1], bench.path())
    return run


for each in sorted(name[:-len(".orders.txt")] for name in os.listdir(LINES) if name.endswith(".orders.txt")):
    TESTS.append(("orders of " + each, file_of_orders(each)))


@test
def grants_at_their_edges(bench):
    expect_answers(bench, [
        ("grant 0 0", "5 0 Late"), ("grant 72057594037927936 0", "3 0 Shape"), ("grant 0 256", "3 0 Shape"),
        ("grant 72057594037927936 256", "3 0 Shape"), ("grant %d %d" % (MOST, MOST), "3 0 Shape"), ("grant 0 1", "0 1 Done"),
        ("grant 0 1", "5 1 Late"), ("grant 0 0", "5 1 Late"), ("grant 0 255", "0 255 Done"), ("grant 1 0", "0 256 Done"),
        ("grant 1 0", "5 256 Late"), ("grant 0 255", "5 256 Late"), ("grant 00001 0002", "0 258 Done"),
        ("grant 72057594037927935 254", "0 18446744073709551614 Done"), ("grant 72057594037927935 255", "0 18446744073709551615 Done"),
        ("grant 72057594037927935 255", "5 18446744073709551615 Late"), ("grant 72057594037927936 0", "3 0 Shape"),
        ("grant 0 256", "3 0 Shape"), ("granted", "0 0 Done 6 0 1 255 256 258 18446744073709551614 18446744073709551615")], bench.path())


@test
def sixty_four_grants_and_no_more(bench):
    pairs = [("grant %d 9" % at, "0 %d Done" % (256 * at + 9)) for at in range(64)]
    stamps = " ".join("%d" % (256 * at + 9) for at in range(64))
    pairs += [("granted", "0 0 Done 64 0 " + stamps), ("grant 64 9", "10 0 Snapshots full"), ("grant 63 9", "5 16137 Late"),
              ("grant 0 256", "3 0 Shape"), ("message 16137 20000", "0 20 Done " + model.record("gossip", (16137, 20000, [])).hex()),
              ("grant 78 32", "5 20000 Late"), ("grant 78 33", "10 0 Snapshots full"), ("granted", "0 0 Done 64 20000 " + stamps)]
    expect_answers(bench, pairs, bench.path())
    expect(len(contents(bench.path())) == 522, "the file has", len(contents(bench.path())), "bytes")
    expect_coordinated(bench, [b"granted", b"grant 99 0"], bench.path())


@test
def granted_of_the_longest_stamps(bench):
    """64 of them, each of 20 digits: the longest answer there is."""
    lines = [b"grant %d %d" % divmod(MOST - at, 256) for at in range(63, -1, -1)]
    command = expect_coordinated(bench, lines + [b"message 0 %d" % MOST, b"granted"], bench.path())
    expect(len(command.answer(b"granted")) > 1350, "the test's own model")
    expect_coordinated(bench, [b"granted", b"message %d %d" % (MOST, MOST), b"granted"], bench.path())


@test
def messages_at_their_bounds(bench):
    """Beyond prev, up to the clock stamp: nothing, one, sixteen, seventeen of them."""
    stamps = [10 * at for at in range(1, 25)]
    pairs = [("message 0 0", told(0, 0, [])), ("message 1 0", "3 0 Shape"), ("granted", "0 0 Done 0 0")]
    pairs += [("grant 0 %d" % stamp, "0 %d Done" % stamp) for stamp in stamps]
    pairs += [("message 0 9", told(0, 9, [])), ("message 0 10", told(0, 10, [10])), ("message 9 10", told(9, 10, [10])),
              ("message 10 10", told(10, 10, [])), ("message 10 19", told(10, 19, [])), ("message 10 20", told(10, 20, [20])),
              ("message 20 19", "3 0 Shape"), ("message 0 160", told(0, 160, stamps[:16])), ("message 0 169", told(0, 169, stamps[:16])),
              ("message 0 170", told(0, 160, stamps[:16])), ("message 1 170", told(1, 160, stamps[:16])),
              ("granted", "0 0 Done 24 169 " + " ".join(map(str, stamps))),
              ("message 10 170", told(10, 170, stamps[1:17])), ("message 0 %d" % MOST, told(0, 160, stamps[:16])),
              ("message 79 240", told(79, 230, stamps[7:23])), ("message 80 240", told(80, 240, stamps[8:])),
              ("grant 0 240", "5 240 Late"), ("grant 0 241", "0 241 Done"), ("message 80 250", told(80, 240, stamps[8:])),
              ("message 90 250", told(90, 250, stamps[9:] + [241])), ("grant 0 250", "5 250 Late"),
              ("message %d %d" % (MOST - 1, MOST), told(MOST - 1, MOST, [])), ("message %d %d" % (MOST, MOST), told(MOST, MOST, [])),
              ("message %d %d" % (MOST, MOST - 1), "3 0 Shape"), ("grant 5 5", "5 18446744073709551615 Late")]
    expect_answers(bench, pairs, bench.path())


@test
def what_was_sent_is_never_granted(bench):
    """A grant is beyond every curr that was sent, also one without a snapshot, and also after a lower one."""
    expect_answers(bench, [
        ("message 0 1000", told(0, 1000, [])), ("message 0 500", told(0, 500, [])), ("granted", "0 0 Done 0 1000"),
        ("grant 3 231", "5 1000 Late"), ("grant 3 232", "5 1000 Late"), ("grant 3 233", "0 1001 Done"),
        ("message 2000 2000", told(2000, 2000, [])), ("grant 7 208", "5 2000 Late"), ("grant 7 209", "0 2001 Done"),
        ("serve " + model.request(2001, 3000).hex(), told(2001, 3000, [])), ("grant 11 184", "5 3000 Late"),
        ("serve " + model.request(3001, 3000).hex(), "3 0 Shape"), ("message 4000 3999", "3 0 Shape"), ("serve 00", "16 0 Malformed"),
        ("grant 11 185", "0 3001 Done"), ("granted", "0 0 Done 3 3000 1001 2001 3001")], bench.path())


@test
def requests_that_are_none(bench):
    """Every length, every other kind and every other length in the first bytes; rubbish, and a message in a request's place."""
    good, command = model.request(3, 999), a_coordinator()
    lines = [b"serve " + good[:length].hex().encode() for length in range(1, 19)]
    lines += [b"serve " + (good + bytes(more)).hex().encode() for more in (1, 2, 8, 19, 493)]
    lines += [b"serve " + (good[:2] + bytes([kind]) + good[3:]).hex().encode() for kind in range(256) if kind != 4]
    lines += [b"serve " + ((17 ^ 1 << bit).to_bytes(2, "big") + good[2:]).hex().encode() for bit in range(16)]
    lines += [b"serve " + bench.chance.randbytes(length).hex().encode() for length in range(1, 513, 7)]
    lines += [b"serve " + model.record("gossip", (0, 9, [5])).hex().encode(), b"serve " + (good + good).hex().encode()]
    put(bench.path(), command.file)
    wanted = answered(command.copy(), lines)[0]
    expect(set(wanted) == {"16 0 Malformed"}, "the test's own model says", set(wanted))
    expect_coordinated(bench, lines + [b"granted", b"serve " + good.hex().encode(), b"granted"], bench.path())


@test
def hex_of_either_case(bench):
    """Read in either, written in lower case."""
    data = model.request(0xabcdef, 0xfedcba9876543210).hex()
    odd_case = "".join(letter.upper() if at % 3 else letter for at, letter in enumerate(data))
    answer = told(0xabcdef, 0xfedcba9876543210, [])
    expect("abcdeffedcba" in answer and odd_case.lower() == data != odd_case, "the test's own model")
    expect_answers(bench, [("serve " + data, answer), ("serve " + data.upper(), answer), ("serve " + odd_case, answer),
                           ("\tserve   " + data + "# a word", answer), ("serve " + data + "\r", answer)])


@test
def faults_of_hex_words(bench):
    """The first byte that is no digit, then the length, then an odd number of digits."""
    lines = [b"serve " + b"0" * count for count in (1, 2, 3, 1022, 1023, 1024, 1025, 1026, 1027, 100000)]
    lines += [b" serve  " + b"f" * count + b"g" + b"f" * rest for count in (0, 1, 36, 37, 1023, 1024, 1025, 5000) for rest in (0, 1, 2)]
    lines += [b"serve", b"serve ", b"serve #00", b"serve 0#0", b"serve 00 00", b"serve 0 00", b"serve 0x00", b"serve -1", b"serve 00=1",
              b"serve \xc3\xa9", b"serve \x00", b"serve 0\x00", b"serve 00,", b"serve " + b"0" * 1026 + b" 5", b"serve " + b"0" * 1024 + b" 5"]
    lines += [b"serve 0" + bytes([byte]) for byte in range(256) if byte != 10]
    expect_coordinated(bench, lines, bench.path())
    faults = {answer.split(" at ")[0][2:] for answer in answered(model.Coordinating(), lines)[0] if " at " in answer}
    expect(faults >= {model.HEX, model.LONG, model.ODD, model.MISSING, model.EXTRA}, "the test's own lines have", faults)


@test
def calls_of_the_other_command(bench):
    """Neither has the other's calls."""
    lines = [b"commit 5 0=1", b"gossip 0 5", b"flush 0", b"read 0 0", b"clock 0 0", b"now 0", b"known", b"standing", b"fresh", b"cut 0",
             b"ask 5", b"hear 00", b"Grant 1 1", b"grant1 1", b"GRANTED", b"grants 5"]
    wanted = answered(model.Coordinating(), lines)[0]
    expect(all("no such call" in answer for answer in wanted), "the test's own model")
    expect_coordinated(bench, lines)
    out, _ = bench.program.run(b"grant 1 1\nmessage 0 5\nserve 00\ngranted\n")
    expect(all("no such call" in answer for answer in lines_in(out)) and len(lines_in(out)) == 4, "a repository answers", shown(out))


@test
def lines_of_a_coordinator_by_chance(bench):
    """In memory, and on one file again and again."""
    for turn in range(8):
        path = bench.path("file%d" % (turn // 4)) if turn % 2 else None
        scout, lines = model.Coordinating(contents(path) if path else b""), []
        while len(lines) < 250:
            line = chances.some_order_line(bench.chance, scout.coordinator)
            if b"help" not in line:
                scout.answer(line, len(lines) + 1)
                lines.append(line)
        expect_coordinated(bench, lines, path)


@test
def long_lines_of_a_coordinator(bench):
    limit = model.LONGEST_LINE
    lines = []
    for at, line in enumerate((b"9" * limit, b"grant " + b"0" * (limit - 9) + b"1 5", b"serve " + b"0" * (limit - 6), b"#" * limit,
                               b"serve " + b"0" * (limit - 7) + b"x", b" " * (limit - 7) + b"granted", b" " * (limit - 6) + b"granted",
                               b"x" * (limit + 1), b"message 0 " + b"9" * (2 * limit), b"granted" + b" " * limit)):
        lines += [line, b"grant %d 0" % (9 + at), b"", b"granted"]
    expect_coordinated(bench, lines, bench.path())


@test
def the_end_of_what_a_coordinator_is_told(bench):
    """quit, exit, no line at all, a line without its end, a mark at the start."""
    path = bench.path()
    expect_coordinated(bench, [b"grant 1 1", b"  quit # for today", b"grant 2 2", b"nonsense"], path)
    expect_coordinated(bench, [b"granted", b"quit 0", b"exit exit", b"Quit", b"exit\r", b"grant 2 2"], path)
    expect_coordinated(bench, [], path)
    expect_coordinated(bench, [b"", b"  ", b"# nothing", b"\r"])
    expect_coordinated(bench, [model.MARK + b"granted", model.MARK + b"granted"])
    for rest in (b"grant 9 9", b"granted", b"#", b" ", b"quit"):
        out, err = bench.coordinator.run(b"granted\n\n" + rest, path)
        expect_lines(lines_in(out), [opened(path, 0, 18), "0 0 Done 1 0 257", "? line 3 has no end"])
        expect(err == b"" and len(contents(path)) == 18, shown(rest), "changed something:", shown(err))
    talk = bench.bare_coordinator.talk(path)
    talk.line()
    expect(talk.ask("quit") is None, "quit is answered")
    talk.process.wait(timeout=PATIENCE)
    expect(talk.end() == (b"", b""), "quit says more")
    expect_left(path)


@test
def help_of_a_coordinator(bench):
    out, err = bench.coordinator.run(b"help\ngranted\n")
    said = lines_in(out)
    expect(said[-1] == "0 0 Done 0 0" and err == b"", "help is followed by", shown(said[-1:]), shown(err))
    expect(all(line.isascii() and line.isprintable() for line in said), "help shows odd bytes")
    for name in ("grant TICK NODE", "message PREV CLOCK", "serve HEX", "granted", "help", "quit, exit"):
        expect(any(line.startswith(name + " ") for line in said[:-1]), "help does not mention", name)
    expect_coordinated(bench, [b"help x", b"help 5 5", b"helpgrant"])


# ---- locks, signals, statuses ----

@test
def a_second_coordinator_is_refused(bench):
    for name, program in (("script", bench.coordinator), ("bare", bench.bare_coordinator)):
        path, command = bench.path(name), model.Coordinating()
        first = program.talk(path)
        expect(first.line() == opened(path, 0, 0), "the first did not open")
        expect(first.ask("grant 1 1") == command.answer(b"grant 1 1"), "the first is not served")
        lock, number = contents(path + ".lock"), number_in(path)
        expect(lock == holder(number), "the lock holds", lock, "and not", holder(number))
        status, out, err = program.ended(b"grant 2 2\n", path)
        expect(out == b"", "the second is served:", shown(out))
        expect(err.decode() == held_word(path, number, "the file") + "\n", "the second says", shown(err))
        expect(status == 1 or not program.is_script(), "the second's status is", status)
        expect(contents(path + ".lock") == lock and contents(path) == command.file, "the second moved something")
        expect(first.ask("grant 3 3") == command.answer(b"grant 3 3"), "the first does not go on")
        first.end()
        expect_left(path)
        expect_quietly_kept(bench, path, command)


@test
def a_lock_of_a_coordinator_removed_by_hand(bench):
    """Then a second opens the file. Whoever comes to write second sees that the file is another, stops, and leaves the other's lock."""
    for turn in (0, 1):
        path, command = bench.path("file%d" % turn), a_coordinator(5)
        put(path, command.file)
        talks = [bench.coordinator.talk(path)]
        talks[0].line()
        os.remove(path + ".lock")
        talks.append(bench.coordinator.talk(path))
        expect(talks[1].line() == opened(path, 0, len(command.file)), "the second did not open")
        lock, line = contents(path + ".lock"), next_grant(command)
        expect(talks[turn].ask(line) == command.answer(line.encode()), "the first to write is not served")
        expect(talks[1 - turn].ask(line) is None, "one stamp is granted twice")
        _, err = talks[1 - turn].end()
        expect(err.decode() == path + ": another program has changed it\n", "standard error says", shown(err))
        expect(contents(path) == command.file, "the file is", shown(contents(path)))
        expect(contents(path + ".lock") == lock or turn == 0, "the second's lock is gone")
        talks[turn].end()
        expect_quietly_kept(bench, path, command)


@test
def coordinators_started_at_once(bench):
    def one(turn):
        path = own_folder(bench)
        if turn % 2:
            put(path + ".lock", b"%d 5 %s\n" % (dead_number(), boot()))
        count = opened_among([bench.bare_coordinator.start(path) for _ in range(3)])
        expect(count < 2, count, "opened one file, in turn", turn + 1)
        expect(count > 0 or turn % 2, "none opened the file, in turn", turn + 1)
        expect_unlocked(path)
    side_by_side(one, [(turn,) for turn in range(8)], 4)


@test
def locks_of_the_dead_and_the_living_before_a_coordinator(bench):
    command, dead, asleep = a_coordinator(5), dead_number(), sleeper()
    path = bench.path()
    try:
        for text, word in ((b"%d\n" % dead, gone(dead)), (b"%d 5 %s\n" % (dead, boot()), gone(dead)), (b"", NOBODY_THERE)):
            put(path, command.file)
            put(path + ".lock", text)
            words = expect_kept(bench, path, command)
            expect(words == [path + ".lock: " + word], "of a lock that holds", text, "it says", words)
        put_early(path, command.file)
        put_early(path + ".lock", holder(asleep.pid))
        before = picture(bench.folder)
        out, err = bench.bare_coordinator.run(b"granted\ngrant 999 9\n", path)
        wanted = held_word(path, asleep.pid, "the file") + "\n"
        expect((out, err.decode()) == (b"", wanted), "of a living process's lock it says", shown(out), shown(err))
        expect_same(bench.folder, before)
    finally:
        end_all([asleep])


@test
def a_coordinator_killed_while_idle(bench):
    """SIGKILL leaves the lock, and the next start takes it over with a word. Every answer was heard, so every change is there."""
    path, command = bench.quick(), model.Coordinating()
    for turn in range(20):
        talk = (bench.bare_coordinator if turn % 4 else bench.coordinator).talk(path)
        talk.line()
        number = number_in(path)
        for _ in range(4):
            call = chances.some_order(bench.chance, command.coordinator)
            wanted = command.call(*call)
            expect(talk.ask(model.line_of(*call)) == wanted, model.line_of(*call), "is not answered", wanted)
        talk.kill()
        expect(contents(path + ".lock").startswith(b"%d " % number), "a kill took the lock away")
        expect(contents(path) == command.file, "an acknowledged change is not in the file")
        words = expect_kept(bench, path, command, bench.bare_coordinator if turn % 3 else bench.coordinator)
        expect(words == [path + ".lock: " + gone(number)], "the next start says", words)


@test
def signals_to_a_coordinator(bench):
    """They end the program, its lock is taken away, and the status tells the number."""
    script_of(bench)
    for number in ENDING:
        path = bench.path("file%d" % number)
        talk = bench.coordinator.talk(path)
        talk.line()
        expect(talk.ask("grant 1 1") == "0 257 Done", "not served")
        program = number_in(path)
        expect_ended_by(number, talk, program)
        expect_left(path)
        expect_quietly_kept(bench, path, model.Coordinating(contents(path)))
    before = os.listdir(bench.folder)
    talk = bench.coordinator.talk(cwd=bench.folder)
    expect(talk.ask("grant 1 1") == "0 257 Done", "not served")
    talk.process.send_signal(signal.SIGTERM)
    talk.process.wait(timeout=10)
    expect(talk.process.returncode == 143, "in memory SIGTERM gives status", talk.process.returncode)
    expect(talk.end() == (b"", b"") and os.listdir(bench.folder) == before, "in memory SIGTERM leaves something")


@test
def statuses_of_a_coordinator(bench):
    script_of(bench)
    path = bench.path()
    run = lambda wanted, data, *words, **options: expect_status(bench, wanted, data, "--coordinator", *words, **options)
    run(0, b"")
    run(0, b"", path)
    run(0, b"grant 1 1\ngrant 1 1\ngrant 0 256\nserve 00\nnonsense\nserve 0\n", path)
    run(0, b"granted\nquit\nx\n", path)
    put(path, b"\x02")
    out, err = run(1, b"granted\n", path)
    expect((out, err) == (b"refused %s: 15 2 Version\n" % path.encode(), b""), "a refused file is answered", shown(out), shown(err))
    expect(contents(path) == b"\x02", "a refused file was changed")
    run(1, b"", bench.folder)
    run(1, b"", bench.path("none/file"))
    clear(path)
    if os.path.exists("/dev/full"):
        with open("/dev/full", "wb") as full:
            for lines in (b"granted\n", b"help\ngranted\n", b"x\nx\n", b"no end"):
                for words in ((), (path,)):
                    _, err = run(1, lines, *words, stdout=full)
                    expect(err.count(b"\n") == 1 and err.startswith(b"standard output: "), shown(lines), "is followed by", shown(err))
    for number, word in ((0, b"standard input: Bad file descriptor\n"), (1, b"standard output: Bad file descriptor\n"), (2, b"")):
        out, err = run(1, None, path, stdin=subprocess.DEVNULL, preexec_fn=lambda: os.close(number))
        expect((out, err) == (b"", word), "with descriptor", number, "closed", shown(out), shown(err))


@test
def bad_usage_of_a_coordinator(bench):
    script_of(bench)
    for words in (["a", "b"], [""], ["-"], ["--coordinator"], ["--demo"], ["a", ""], ["--records", "a"], ["--help"]):
        out, err = expect_status(bench, 2, b"granted\n", "--coordinator", *words, cwd=bench.folder)
        expect((out, err) == (b"", USAGE), words, "is answered", shown(out), shown(err))
    for words in (["a", "--coordinator"], ["--demo", "--coordinator"], ["--records", "--coordinator"]):
        out, err = expect_status(bench, 2, b"granted\n", *words, cwd=bench.folder)
        expect((out, err) == (b"", USAGE), words, "is answered", shown(out), shown(err))
    for words in (["--what"], ["-"], [""], ["a", "b"], ["a", "--coordinator"], ["--coordinator", "a"], ["a", "b", "c"]):
        out, err = bench.bare_coordinator.run(b"granted\n", *words, cwd=bench.folder)
        expect((out, err) == (b"", USAGE), words, "is answered by the program itself", shown(out), shown(err))
    for name in ("n" * 4001, "\u00e9" * 2001):
        out, err = expect_status(bench, 2, b"granted\n", "--coordinator", name, cwd=bench.folder)
        expect((out, err) == (b"", name.encode() + b": the name is longer than 4000 bytes\n"), "is answered", shown(out), shown(err))
    expect(os.listdir(bench.folder) == [], "files were made:", os.listdir(bench.folder))


@test
def a_coordinator_on_a_terminal(bench):
    script_of(bench)
    path = bench.path()
    master, process = at_a_terminal(bench, "--coordinator", path)
    expect_typed(master, process, path, (
        (b"grant 1 1", b"0 257 Done"), (b"", b""), (b"granted", b"0 0 Done 1 0 257"),
        (b"nonsense", b"? no such call at line 4 column 1; help lists them")))
    expect(process.returncode == 0, "the status is", process.returncode)
    expect_left(path)
    expect_quietly_kept(bench, path, model.Coordinating(contents(path)))
