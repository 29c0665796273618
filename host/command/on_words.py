# Tests of what the command says beside its answers: where a fault lies, help, the demo; and of known, quit and exit.

import os
import re
import time

import chance as chances
import model
from bench import a_journal, answered, expect_held, expect_lines, expect_served, expect_unlocked, lines_in, opened, test
from running import PATIENCE, contents, expect, put, shown

USAGE = "usage: jibcradle [JOURNAL | --coordinator [FILE] | --demo | --records JOURNAL | --help | --version]\n"

# ---- known ----

@test
def known_with_as_many_snapshots_as_there_can_be(bench):
    """64 of them, each of 20 digits: the longest answer there is."""
    first = 2 ** 64 - model.MOST_SNAPSHOTS
    lines, prev = [b"known"], 0
    for start in range(first, 2 ** 64, model.MOST_STAMPS):
        stamps = range(start, start + model.MOST_STAMPS)
        lines += [b"gossip %d %d " % (prev, stamps[-1]) + b" ".join(b"%d" % stamp for stamp in stamps), b"known"]
        prev = stamps[-1]
    lines.insert(1, b"commit %d 0=1" % (first - 1))
    command = expect_served(bench, lines, bench.path())
    expect(len(command.store.snapshots) == model.MOST_SNAPSHOTS and len(command.answer(b"known")) > 1390, "the test's own model")
    expect_served(bench, [b"known", b"known"], bench.path())


@test
def known_among_chance_calls(bench):
    command, lines = model.Command(), []
    for _ in range(400):
        call = chances.some_change(bench.chance, command.store)
        command.call(*call)
        lines += [model.line_of(*call).encode(), b"known"]
    expect_served(bench, lines)


# ---- quit and exit ----

@test
def quit_while_the_input_is_open(bench):
    for at, word in enumerate(("quit", "exit", "  quit # for today", "exit\r")):
        path = bench.path("journal%d" % at)
        talk = bench.program.talk(path)
        talk.line()
        expect(talk.ask("commit 100 0=7") == "0 23 Done", "not served")
        expect(talk.ask(word) is None, shown(word), "is answered")
        talk.process.wait(timeout=PATIENCE)
        expect(talk.process.returncode == 0, shown(word), "ends with the status", talk.process.returncode)
        expect_unlocked(path)
        expect(talk.end() == (b"", b""), shown(word), "says more")
        expect_held(bench, path, model.Command(contents(path)))


@test
def lines_behind_quit(bench):
    """They may be many, and are neither served nor waited for."""
    command = a_journal()
    put(bench.path(), command.journal)
    steps = chances.plan(bench.chance, command.copy(), 200)
    lines = chances.lines_of(steps).split(b"\n")[:-1]
    expect_served(bench, lines[:20] + [b"exit"] + lines[20:] + [b"nonsense"] * 5000, bench.path())
    expect(contents(bench.path()) == command.journal + b"".join(more for _, _, more in steps[:20]), "more was written")
    out, err = bench.program.run(b"standing\nquit\n" + b"now 0\n" * 500000)
    expect(out == b"0 0 Done 0 0 0 0 0\n" and err == b"", "said:", shown(out), shown(err))


@test
def quit_without_its_end(bench):
    for word in (b"quit", b"exit", b" quit "):
        out, _ = bench.program.run(b"standing\n" + word)
        expect_lines(lines_in(out), ["0 0 Done 0 0 0 0 0", "? line 2 has no end"])


# ---- where a fault lies ----

@test
def lines_are_counted(bench):
    """Over blank lines, comments, served lines, faults, lines too long, and whatever ends them."""
    long = b"x" * (model.LONGEST_LINE + 1)
    lines = [b"", b"# a word", b"x", b"\r", b"  \t", b"now 0\r", b"now x\r", b"commit 1 0=1", b" commit 1 0", b"help me", b"",
             long, b"x", b" " * model.LONGEST_LINE, long + long, b"now 0 0", b"quit 0", b"\xff", b"\x00", b"known 5"]
    expect_served(bench, lines, bench.path())
    for count in (9, 10, 99, 255, 256, 65535, 65536, 99999, 1200000):
        out, _ = bench.program.run(b"\n" * (count - 1) + b" now x\n#")
        expect_lines(lines_in(out), ["? no digit at line %d column 6" % count, "? line %d has no end" % (count + 1)])


@test
def faults_of_random_lines(bench):
    """Blank ones among them, and each in its place on a journal."""
    lines = [b"", b"\r", b"#"]
    while len(lines) < 300:
        line = chances.bent(bench.chance, model.line_of(*chances.edgy_call(bench.chance, model.Store())).encode())
        lines += [b""] * bench.chance.choice([0, 0, 0, 1, 3]) + [line] * (b"help" not in line and b"fresh" not in line)
    answers = answered(model.Command(), lines)[0]
    expect(sum(" at line " in answer for answer in answers) > 40, "the test's own lines have too few faults")
    expect_served(bench, lines, bench.path())


@test
def a_mark_at_the_start(bench):
    """The mark that some editors put in front of a text is passed over there and nowhere else."""
    mark = model.MARK
    for lines in ([mark + b"now 0"], [mark + b"x", b"x"], [mark + b" now 0 5"], [mark], [mark + b"# a word", b"y"],
                  [mark + mark + b"now 0"], [b"now 0", mark + b"now 0"], [b"", mark + b"now 0"], [b" " + mark + b"now 0"],
                  [mark[:2] + b"now 0"], [mark[:1], b"x"], [mark + b"quit", b"now 0"], [mark + b"commit 5 0=1", b"now 0"]):
        expect_served(bench, lines)
    expect(model.Command().answer(mark + b"x") == "? no such call at line 1 column 1; help lists them", "the test's own model")
    expect_served(bench, [mark + b"commit 5 0=1", b"now 0"], bench.path())
    talk = bench.program.talk()
    for piece in ("\xef", "\xbb", "\xbfno", "w 0\n"):
        talk.send(piece)
        time.sleep(0.02)
    expect(talk.line() == "0 0 Done" + " 0" * 16, "a mark in pieces is not passed over")
    talk.end()


# ---- help ----

def helped(bench, line):
    """What help says, and nothing is changed by it."""
    out, err = bench.program.run(line + b"\nstanding\n")
    lines = lines_in(out)
    expect(lines[-1:] == ["0 0 Done 0 0 0 0 0"] and err == b"", shown(line), "is followed by", shown(lines[-1:]), shown(err))
    expect(all(said.isascii() and said.isprintable() for said in lines), shown(line), "shows odd bytes")
    return lines[:-1]


@test
def help_names_every_call(bench):
    said = "\n".join(helped(bench, b"help"))
    for name in ("commit", "gossip", "flush", "read", "clock", "now", "standing", "known", "fresh", "help", "cut",
                 "quit", "exit", "codes", "ask", "hear"):
        expect(re.search(r"\b%s\b" % name, said), "help does not mention", name)


@test
def help_codes_names_every_code(bench):
    said = helped(bench, b"help codes")
    expect(len(said) >= len(model.NAMES), "help codes has", len(said), "lines")
    for code, name in enumerate(model.NAMES):
        found = [line for line in said if re.match(r"\s*%d\s+%s\b" % (code, name), line)]
        expect(len(found) == 1, "help codes has", len(found), "lines of", code, name)
        words = re.sub(r"\s*%d\s+%s\W*" % (code, name), "", found[0], count=1).split()
        expect(len(words) >= 3, "help codes has no sentence for", name, shown(found))


@test
def help_standing_names_every_figure(bench):
    said = "\n".join(helped(bench, b"help standing"))
    expect(len(said.split()) >= 20, "help standing says only", shown(said))
    places = [re.search(r"\b%s\b" % name, said) for name in ("pending", "past", "snapshots", "copies", "lag")]
    expect(all(places), "help standing does not name every figure:", shown(said))
    expect(helped(bench, b"help standing") != helped(bench, b"help"), "help standing is help")


@test
def help_of_something_else(bench):
    expect_served(bench, [b"help x", b" help  commit", b"help codes 5", b"help standing standing", b"helpcodes", b"codes",
                          b"help help"])


# ---- the demo ----

@test
def the_demo_shows_the_night(bench):
    out, err = bench.program.run(b"", "--demo")
    answers = [found.group(1) for found in re.finditer(r"^(\d+ \d+) [A-Z]", out.decode("latin-1"), re.MULTILINE)]
    wanted = ["0 23", "5 100", "0 45", "0 73", "0 105", "14 0", "13 110", "0 77", "1 77", "0 97", "5 200", "6 200",
              "7 105", "1 97", "0 23", "0 51", "0 120", "0 1", "0 0"]
    for pair in wanted:
        expect(pair in answers, "the demo does not show", pair, "in its turn")
        answers = answers[answers.index(pair) + 1:]
    expect(err == b"", "standard error is not empty:", shown(err))


@test
def the_demo_says_each_item_in_words(bench):
    out, _ = bench.program.run(b"", "--demo")
    items = re.findall(r"^(?:> )?# (\d+)\b\W*(.*)$", out.decode("latin-1"), re.MULTILINE)
    expect([int(number) for number, _ in items] == list(range(1, 14)), "the demo's items are", [number for number, _ in items])
    for number, words in items:
        expect(len(re.findall(r"[A-Za-z]{2,}", words)) >= 3, "the demo says of item", number, "only", shown(words))


@test
def the_demo_by_hand(bench):
    """The lines that the demo shows, typed: the same answers, for each of them."""
    out, _ = bench.program.run(b"", "--demo")
    shows = lines_in(out)
    typed = [line[2:].encode() for line in shows if line.startswith("> ")]
    expect_lines([line for line in shows if not line.startswith("> ")], answered(model.Command(), typed)[0])
    expect_served(bench, typed)


# ---- words of the start ----

@test
def words_that_are_no_journal(bench):
    """How the program is called; no file is made."""
    for words in (["--recrods"], ["-"], ["-x"], ["--"], [""], ["a", "b"], ["--demo", "a"], ["a", "--demo"], ["--records"],
                  ["--records", "a", "b"], ["--records", ""], ["--demo", "--demo"]):
        out, err = bench.bare.run(b"commit 5 0=1\n", *words, cwd=bench.folder)
        expect((out, err) == (b"", USAGE.encode()), words, "is answered", shown(out), shown(err))
    expect(os.listdir(bench.folder) == [], "a file was made:", os.listdir(bench.folder))


@test
def a_name_that_is_too_long(bench):
    parts = ["x" * 99] * 39
    for words in (["/".join(parts) + "y" * 102], ["--records", "/".join(parts) + "y" * 102]):
        out, err = bench.bare.run(b"commit 5 0=1\n", *words, cwd=bench.folder)
        expect(len(words[-1]) == 4001, "the test's own name has", len(words[-1]))
        wanted = words[-1].encode() + b": the name is longer than 4000 bytes\n"
        expect((out, err) == (b"", wanted), "answered", shown(out), shown(err))
    name = words[-1][:4000]
    out, err = bench.bare.run(b"commit 5 0=1\n", name, cwd=bench.folder)
    expect((out, err) == (b"", name.encode() + b": its folder does not exist\n"), "answered", shown(out), shown(err))


@test
def a_closed_standard_descriptor(bench):
    """A journal's file would take its number: refused, and nothing is made."""
    for number in (0, 1, 2):
        out, err = bench.bare.run(b"commit 5 0=1\n", bench.path(), preexec_fn=lambda: os.close(number))
        expect(b"Done" not in out, "served without descriptor", number, shown(out))
        expect(err or number == 2, "no word on standard error without descriptor", number)
        expect(os.listdir(bench.folder) == [], "a file was made:", os.listdir(bench.folder))
    put(bench.path(), b"")
    expect(opened(bench.path(), 0, 0) in bench.bare.run(b"", bench.path())[0].decode(), "not opened")
