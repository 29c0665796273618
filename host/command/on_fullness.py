# Tests of the word that a journal is over nine tenths full: from 58,982 of 65,535 bytes on. A journal's length is odd, since every
# record's is even: 58,981 is the last length without the word, 58,983 the first with it.

import model
from bench import (
    answered, clear, expect_held, expect_lines, expect_served, full_word, is_full, lines_in, lines_that_fill_a_journal, messages,
    opened, test)
from running import expect, put, shown


def expect_words(bench, before, lines, lengths):
    """Opens a journal and serves lines: at these used lengths, and no others, a word is said."""
    path = bench.quick()
    clear(path)
    put(path, before.journal)
    answers = answered(before.copy(), lines)[0]
    out, err = bench.program.run(b"".join(line + b"\n" for line in lines), path)
    expect_lines(lines_in(out), [opened(path, 0, len(before.journal))] + answers)
    expect_lines(lines_in(err), [full_word(path, used) for used in lengths])


@test
def at_the_edge_of_nine_tenths(bench):
    expect(not is_full(58981) and is_full(58982), "the test's own arithmetic")
    expect(full_word("j", 58983) == "j: over nine tenths full: 58983 bytes used, 6552 left", "the test's own arithmetic")
    below, edge, beyond = messages(2948), messages(2949), messages(2948)
    beyond.answer(b"commit 9999 0=1")
    expect([len(one.journal) for one in (below, edge, beyond)] == [58961, 58981, 58983], "the test's own journals")
    message = lambda at: b"gossip %d %d" % (at, at + 1)
    expect_words(bench, edge, [b"standing"], [])
    expect_words(bench, edge, [b"flush 0", b"gossip 1 2", message(2949), message(2950), b"flush 0", message(2951)], [59001])
    expect_words(bench, beyond, [b"standing"], [58983])
    expect_words(bench, beyond, [b"flush 0", message(9999), b"gossip 2948 10000"], [58983])
    expect_words(bench, below, [message(2948), b"standing", message(2949), message(2950)], [59001])
    expect_words(bench, below, [b"commit 9999 0=1", b"commit 9999 0=1", b"commit 10000 0=1"], [58983])


@test
def passed_again_after_fresh(bench):
    lines, command = lines_that_fill_a_journal()
    passed = next(used for used in lengths_of(lines) if is_full(used))
    expect_words(bench, messages(3000), [b"fresh"] + lines[:50], [60001])
    expect_words(bench, messages(3000), [b"fresh"] + lines, [60001, passed])
    expect_words(bench, model.Command(), lines + [b"fresh", b"commit 5 0=1"], [passed])


def lengths_of(lines):
    return [int(answer.split()[1]) for answer in answered(model.Command(), lines)[0]]


@test
def a_tail_is_not_counted(bench):
    """A file over nine tenths whose whole records are not."""
    edge = messages(2949)
    put(bench.path(), edge.journal + b"\x00\xaa" + bytes(100))
    words = expect_held(bench, bench.path(), edge)
    expect(words == [], "standard error says", shown(words))


@test
def no_word_in_memory(bench):
    lines, _ = lines_that_fill_a_journal()
    expect_served(bench, lines)
