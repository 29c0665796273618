# Tests of a journal whose name is moved while the program has it open, of links, and of fresh through them.

import os
import shutil

import model
from bench import (
    a_journal, expect_held, expect_lines, expect_same, expect_unlocked, lines_in, moved_word, opened, picture, put_early, test)
from running import Failed, contents, expect, put, shown

LATE = "commit 18446744073709551614 0=1"  # a change that fits any journal here, and the one after it
LATER = "commit 18446744073709551615 0=2"


def opened_talk(bench, path, command, program=None):
    talk = (program or bench.program).talk(path)
    line = talk.line()
    expect(line == opened(path, 0, len(command.journal)), "the first line is", shown(line))
    return talk


def expect_no_more(talk, path, line):
    """A change is not acknowledged: a word, and the program ends."""
    got = talk.ask(line)
    expect(got is None, shown(line), "is answered", shown(got))
    out, err = talk.end()
    expect(out == b"", "it says more:", shown(out))
    expect(err == (moved_word(path) + "\n").encode("latin-1"), "standard error says", shown(err))


def at_another_place(path):
    return path + " at another place"


def removed(path):
    os.remove(path)


def renamed(path):
    os.rename(path, at_another_place(path))


def renamed_as_if_removed(path):
    os.rename(path, path + " (deleted)")


def replaced_by_a_copy(path):
    shutil.copy2(path, path + " copy")
    os.rename(path + " copy", path)


def removed_and_made_anew(path):
    data = contents(path)
    os.remove(path)
    put(path, data)


def renamed_and_made_anew(path):
    os.rename(path, at_another_place(path))
    shutil.copy2(at_another_place(path), path)


def replaced_by_a_longer_one(path):
    data = contents(path)
    os.remove(path)
    put(path, data + b"more")


def replaced_by_an_empty_one(path):
    os.rename(path, at_another_place(path))
    put(path, b"")


def replaced_by_a_folder(path):
    os.remove(path)
    os.mkdir(path)


def replaced_by_a_link_to_nowhere(path):
    os.remove(path)
    os.symlink("nowhere", path)


def replaced_by_a_link_to_a_copy(path):
    shutil.copy2(path, path + " copy")
    os.remove(path)
    os.symlink(path + " copy", path)


MOVES = [removed, renamed, renamed_as_if_removed, replaced_by_a_copy, removed_and_made_anew, renamed_and_made_anew,
         replaced_by_a_longer_one, replaced_by_an_empty_one, replaced_by_a_folder, replaced_by_a_link_to_nowhere,
         replaced_by_a_link_to_a_copy]


def moved_under(bench, move, line, program):
    """A journal is moved while the program has it: reads go on, the change stops it, and nothing but the lock is gone after."""
    folder = bench.path("%s %s" % (move.__name__, line.split()[0]))
    os.mkdir(folder)
    path, command = os.path.join(folder, "journal"), a_journal()
    put_early(path, command.journal)
    talk = opened_talk(bench, path, command, program)
    move(path)
    before = picture(folder)
    expect(talk.ask("standing") == command.call("standing", ()), "a read is not served")
    expect_no_more(talk, path, line)
    del before["journal.lock"]
    expect_same(folder, before)


@test
def moved_before_a_change(bench):
    for at, move in enumerate(MOVES):
        try:
            moved_under(bench, move, LATE, bench.bare if at % 3 else bench.program)
        except Failed as why:
            raise Failed(move.__name__.replace("_", " ") + ":", why)


@test
def moved_before_fresh(bench):
    for at, move in enumerate(MOVES):
        if move is replaced_by_a_link_to_nowhere or move is replaced_by_a_link_to_a_copy:
            continue  # of a link fresh has its own word
        try:
            moved_under(bench, move, "fresh", bench.program if at % 3 == 0 else bench.bare)
        except Failed as why:
            raise Failed(move.__name__.replace("_", " ") + ":", why)


@test
def moved_after_changes(bench):
    """What was acknowledged before is in the file, wherever that is now."""
    path, command = bench.path(), a_journal()
    put(path, command.journal)
    talk = opened_talk(bench, path, command)
    expect(talk.ask(LATE) == command.answer(LATE.encode()), "not served")
    renamed_and_made_anew(path)
    expect_no_more(talk, path, LATER)
    expect(contents(path) == command.journal and contents(at_another_place(path)) == command.journal, "a file was written")
    expect_held(bench, at_another_place(path), command)


@test
def moved_and_moved_back(bench):
    """The same file is at its name again, so the program goes on; so it does where a second name of the file takes its place."""
    path, command = bench.path(), a_journal()
    put(path, command.journal)
    for program in (bench.program, bench.bare):
        talk = opened_talk(bench, path, command, program)
        renamed(path)
        expect(talk.ask("standing") == command.call("standing", ()), "a read is not served")
        os.rename(at_another_place(path), path)
        line = "commit %d 0=1" % (max(command.store.last, command.store.horizon) + 1)
        expect(talk.ask(line) == command.answer(line.encode()), "not served after the file is back")
        os.rename(path, at_another_place(path))
        os.link(at_another_place(path), path)
        os.remove(at_another_place(path))
        line = "commit %d 0=1" % (command.store.last + 1)
        expect(talk.ask(line) == command.answer(line.encode()), "not served under the file's second name")
        expect(talk.end() == (b"", b""), "more is said")
        expect(contents(path) == command.journal, "an acknowledged change is not in the file")
        expect_unlocked(path)
    expect_held(bench, path, command)


@test
def a_journal_with_two_names(bench):
    path, command = bench.path(), a_journal()
    put(path, command.journal)
    os.link(path, bench.path("second"))
    talk = opened_talk(bench, path, command)
    os.remove(bench.path("second"))
    expect(talk.ask(LATE) == command.answer(LATE.encode()), "not served after another name is gone")
    os.link(path, bench.path("second"))
    os.remove(path)
    expect_no_more(talk, path, LATER)
    expect(contents(bench.path("second")) == command.journal, "the file was written under its other name")


@test
def a_new_journal_removed(bench):
    """Before its first record, and after fresh."""
    path = bench.path()
    talk = opened_talk(bench, path, model.Command())
    os.remove(path)
    expect_no_more(talk, path, LATE)
    expect(os.listdir(bench.folder) == [], "the folder has", os.listdir(bench.folder))
    talk = opened_talk(bench, path, model.Command())
    expect(talk.ask("commit 5 0=1") == "0 23 Done" and talk.ask("fresh") == "0 0 Done", "not served")
    os.rename(path + ".old", path)  # over the new one
    expect_no_more(talk, path, LATE)
    expect(os.listdir(bench.folder) == ["journal"] and len(contents(path)) == 23, "the folder has", os.listdir(bench.folder))


@test
def its_folder_moved(bench):
    folder, command = bench.path("folder"), a_journal()
    os.mkdir(folder)
    path = os.path.join(folder, "journal")
    put(path, command.journal)
    talk = opened_talk(bench, path, command)
    os.rename(folder, bench.path("elsewhere"))
    expect(talk.ask("standing") == command.call("standing", ()), "a read is not served")
    os.rename(bench.path("elsewhere"), folder)
    expect(talk.ask(LATE) == command.answer(LATE.encode()), "not served after its folder is back")
    os.rename(folder, bench.path("elsewhere"))
    os.mkdir(folder)
    put(path, command.journal)
    expect_no_more(talk, path, LATER)
    for name in ("folder", "elsewhere"):
        expect(contents(bench.path(name + "/journal")) == command.journal, "a file was written in", name)


@test
def a_relative_name_moved(bench):
    command = a_journal()
    put(bench.path("near"), command.journal)
    talk = bench.program.talk("near", cwd=bench.folder)
    expect(talk.line() == opened("near", 0, len(command.journal)), "not opened")
    expect(talk.ask(LATE) == command.answer(LATE.encode()), "not served")
    replaced_by_a_copy(bench.path("near"))
    expect_no_more(talk, "near", LATER)
    expect(contents(bench.path("near")) == command.journal, "the copy was written")


# ---- links ----

def linked(bench, command):
    """A journal reached through a link, and another file like it."""
    put(bench.path("one"), command.journal)
    put(bench.path("other"), command.journal)
    os.symlink("one", bench.path("link"))
    return bench.path("link")


def point(link, target):
    os.symlink(target, link + " new")
    os.rename(link + " new", link)


@test
def a_link_pointed_elsewhere(bench):
    for target in ("other", "nowhere", "."):
        folder = bench.path("to %s" % target.replace(".", "itself"))
        os.mkdir(folder)
        command, one, link = a_journal(), os.path.join(folder, "one"), os.path.join(folder, "link")
        put(one, command.journal)
        put(os.path.join(folder, "other"), command.journal)
        os.symlink("one", link)
        talk = opened_talk(bench, link, command)
        expect(talk.ask(LATE) == command.answer(LATE.encode()), "not served through a link")
        expect(contents(one) == command.journal and os.path.islink(link), "the link's file is not written")
        point(link, target)
        before = picture(folder)
        expect_no_more(talk, link, LATER)
        del before["link.lock"]
        expect_same(folder, before)


@test
def a_link_pointed_elsewhere_and_back(bench):
    command = a_journal()
    link = linked(bench, command)
    talk = opened_talk(bench, link, command)
    point(link, "other")
    point(link, bench.path("one"))
    expect(talk.ask(LATE) == command.answer(LATE.encode()), "not served after the link is back")
    expect(talk.end() == (b"", b""), "more is said")
    expect(contents(bench.path("one")) == command.journal, "an acknowledged change is not in the file")
    expect(contents(bench.path("other")) == a_journal().journal, "the other file was written")


@test
def a_link_in_the_middle_of_the_path(bench):
    command = a_journal()
    for name in ("one", "other"):
        os.mkdir(bench.path(name))
        put(bench.path(name + "/journal"), command.journal)
    os.symlink("one", bench.path("link"))
    path = bench.path("link/journal")
    talk = opened_talk(bench, path, command)
    expect(talk.ask(LATE) == command.answer(LATE.encode()), "not served through a link")
    point(bench.path("link"), "other")
    expect_no_more(talk, path, LATER)
    expect(contents(bench.path("other/journal")) == a_journal().journal, "the other file was written")
    expect(contents(bench.path("one/journal")) == command.journal, "an acknowledged change is not in the file")


@test
def two_programs_by_two_names(bench):
    """A link has a lock of its own, so both open. The second to write sees that the file has grown, and stops."""
    command = a_journal()
    link = linked(bench, command)
    one, other = opened_talk(bench, bench.path("one"), command), opened_talk(bench, link, command)
    expect(one.ask(LATE) == command.answer(LATE.encode()), "the first is not served")
    got = other.ask(LATE)
    expect(got is None, "the second is answered", shown(got))
    _, err = other.end()
    expect(err.decode() == link + ": another program has changed it\n", "standard error says", shown(err))
    expect(one.ask(LATER) == command.answer(LATER.encode()), "the first does not go on")
    one.end()
    expect(contents(bench.path("one")) == command.journal, "an acknowledged change is not in the file")


@test
def fresh_through_a_link(bench):
    """The link would be renamed, not the file: refused, and nothing is changed. Under the file's own name it works."""
    command = a_journal()
    link = linked(bench, command)
    before = picture(bench.folder)
    out, err = bench.program.run(b"fresh\nstanding\nfresh\n", link)
    barred = "? %s is a link; fresh works under the file's own name" % link
    expect_lines(lines_in(out), [opened(link, 0, len(command.journal)), barred, command.call("standing", ()), barred])
    expect(err == b"", "standard error is not empty:", shown(err))
    expect_same(bench.folder, before)
    out, _ = bench.program.run(b"fresh\nstanding\n", bench.path("one"))
    expect_lines(lines_in(out)[1:], ["0 0 Done", "0 0 Done 0 0 0 0 0"])
    expect(contents(bench.path("one.old")) == command.journal and contents(bench.path("one")) == b"", "fresh was not done")
    expect_held(bench, link, model.Command())


@test
def fresh_through_a_link_in_the_middle(bench):
    """Only the last part of the name matters."""
    os.mkdir(bench.path("one"))
    os.symlink("one", bench.path("link"))
    put(bench.path("one/journal"), a_journal().journal)
    out, _ = bench.program.run(b"fresh\ncommit 5 0=1\n", bench.path("link/journal"))
    expect_lines(lines_in(out)[1:], ["0 0 Done", "0 23 Done"])
    expect(contents(bench.path("one/journal.old")) == a_journal().journal, "the old journal is not whole")


@test
def a_link_to_nowhere(bench):
    """A journal is made where the link leads, or there is a word; the link stays."""
    os.symlink("new", bench.path("link"))
    out, err = bench.program.run(b"commit 5 0=1\n", bench.path("link"))
    expect(os.path.islink(bench.path("link")), "the link is gone")
    expect(b"23 Done" in out and len(contents(bench.path("new"))) == 23 or out == b"" and err, "said:", shown(out), shown(err))
    expect_unlocked(bench.path("link"))
