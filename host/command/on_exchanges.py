# Tests of what a repository and a coordinator send each other, as the repository's command asks and hears it: ask, hear, and what is
# in the journal after it.

import chance as chances
import model
from bench import a_journal, answered, clear, expect_held, expect_lines, expect_refused, expect_served, lines_in, messages, test
from on_coordinators import told
from on_files import expect_opened_as_judged
from running import contents, expect, put, shown

MOST = 2 ** 64 - 1


def hear(prev, curr, stamps=()):
    """The line that hears a message, well formed or not."""
    return "hear " + model.record("gossip", (prev, curr, list(stamps))).hex()


def asked(start, to):
    return "0 19 Done " + model.request(start, to).hex()


def expect_answers(bench, pairs, path=None):
    """Lines with the answers that they must have; the model must say the same."""
    lines, wanted = [line.encode() for line, _ in pairs], [answer for _, answer in pairs]
    expect_lines(answered(model.Command(contents(path) if path else b""), lines)[0], wanted, lines)
    return expect_served(bench, lines, path)


# ---- ask ----

@test
def asked_from_the_horizon_on(bench):
    expect_answers(bench, [
        ("ask 0", asked(0, 0)), ("ask 5", asked(0, 5)), ("ask %d" % MOST, asked(0, MOST)), ("commit 9 0=1", "0 23 Done"), ("ask 8", asked(0, 8)),
        ("gossip 0 300 20", "0 51 Done"), ("ask 299", "3 0 Shape"), ("ask 0", "3 0 Shape"), ("ask 300", asked(300, 300)),
        ("ask 301", asked(300, 301)), ("ask %d" % MOST, "0 19 Done 001104000000000000012cffffffffffffffff"), ("known", "0 0 Done 300 9 20"),
        ("gossip 300 %d" % MOST, "0 71 Done"), ("ask %d" % (MOST - 1), "3 0 Shape"), ("ask %d" % MOST, asked(MOST, MOST)),
        ("known", "0 0 Done %d 9 20" % MOST)], bench.path())


@test
def asking_changes_nothing(bench):
    """Neither the store nor the journal, and a full journal is no hindrance."""
    command = messages(3276)
    put(bench.path(), command.journal)
    expect(len(command.journal) == 65521, "the test's own journal has", len(command.journal))
    lines = [b"ask 3276", b"ask 3275", b"ask 9999", b"known", hear(3276, 3277).encode(), hear(3277, 4000).encode(), hear(0, 3276).encode()]
    wanted = [asked(3276, 3276), "3 0 Shape", asked(3276, 9999), "0 0 Done 3276 0", "12 65541 No journal room",
              "6 3276 Gap " + model.request(3276, 4000).hex(), "1 65521 Nothing"]
    expect_lines(answered(command.copy(), lines)[0], wanted)
    expect_served(bench, lines, bench.path())


# ---- hear ----

@test
def every_code_of_what_is_heard(bench):
    """Done, Nothing, Gap, Conflict, Malformed; at each bound."""
    gap = lambda horizon, curr: "6 %d Gap %s" % (horizon, model.request(horizon, curr).hex())
    expect_answers(bench, [
        (hear(0, 0), "1 0 Nothing"), (hear(1, 1), gap(0, 1)), (hear(5, 9, [7]), gap(0, 9)), (hear(0, 10, [5, 10]), "0 37 Done"),
        (hear(0, 10, [5, 10]), "1 37 Nothing"), (hear(5, 10, [10]), "1 37 Nothing"), (hear(10, 10), "1 37 Nothing"),
        (hear(3, 7, [5]), "1 37 Nothing"), (hear(5, 9), "1 37 Nothing"), (hear(0, 9, [5]), "1 37 Nothing"),
        (hear(0, 10, [5]), "7 10 Conflict"), (hear(0, 10, [10]), "7 5 Conflict"), (hear(4, 20, [6, 10]), "7 5 Conflict"),
        (hear(0, 4, [3]), "7 3 Conflict"), (hear(11, 11), gap(10, 11)), (hear(11, 99, [12, 13]), gap(10, 99)),
        (hear(MOST, MOST), gap(10, MOST)), (hear(10, 11), "0 57 Done"), (hear(0, 20, [5, 10, 12, 20]), "0 109 Done"),
        (hear(11, 10), "16 0 Malformed"), (hear(20, 30, [20]), "16 0 Malformed"), (hear(20, 30, [31]), "16 0 Malformed"),
        (hear(20, 30, [22, 22]), "16 0 Malformed"), (hear(20, 30, [23, 22]), "16 0 Malformed"),
        (hear(20, 60, range(21, 38)), "16 0 Malformed"), (hear(20, 60, range(21, 37)), "0 257 Done"),
        ("known", "0 0 Done 60 0 5 10 12 20 " + " ".join(map(str, range(21, 37)))), (hear(60, MOST, [MOST]), "0 285 Done"),
        (hear(MOST, MOST), "1 285 Nothing"), (hear(MOST - 1, MOST, [MOST]), "1 285 Nothing")], bench.path())
    expect_served(bench, [b"known", b"standing"], bench.path())


@test
def more_heard_than_can_be_known(bench):
    pairs = [(hear(100 * at, 100 * at + 100, range(100 * at + 1, 100 * at + 17)), "0 %d Done" % (1 + 148 * (at + 1))) for at in range(4)]
    pairs += [(hear(400, 500, [401]), "10 0 Snapshots full"), (hear(400, 500), "0 613 Done"), (hear(300, 600, range(301, 317)), "0 761 Done"),
              (hear(300, 601, [*range(301, 316)]), "7 316 Conflict"), (hear(316, 700, [700]), "10 0 Snapshots full")]
    expect_answers(bench, pairs, bench.path())


@test
def other_records_are_not_heard(bench):
    """A commit, a flush, a request, of any numbers: none is a message."""
    records = [model.record("commit", (5, [(0, 1)])), model.record("commit", (5, [(thing, 1) for thing in range(16)])), model.record("flush", (0,)),
               model.request(0, 5), model.request(5, 9), b"\x00\x02\x02\x00", b"\x00\x00", b"\x00\x01\x02", b"\x01", b"\x00", b"\x00\x12\x02"]
    lines = [b"hear " + data.hex().encode() for data in records]
    good = model.record("gossip", (0, 9, [5, 7]))
    lines += [b"hear " + (good[:2] + bytes([kind]) + good[3:]).hex().encode() for kind in range(256) if kind != 2]
    lines += [b"hear " + (good[:19] + bytes([count]) + good[20:]).hex().encode() for count in range(256) if count != 2]
    lines += [b"hear " + ((len(good) - 2 ^ 1 << bit).to_bytes(2, "big") + good[2:]).hex().encode() for bit in range(16)]
    expect(set(answered(model.Command(), lines)[0]) == {"16 0 Malformed"}, "the test's own model")
    expect_served(bench, lines + [b"standing", b"known"], bench.path())
    expect(contents(bench.path()) == b"", "something was written")


@test
def heard_cut_short_and_lengthened(bench):
    """Every beginning of messages of all lengths, and every message with more bytes behind it."""
    command = a_journal(8)
    put(bench.path(), command.journal)
    floor, lines = command.store.horizon, []
    for count in (0, 1, 2, 15, 16):
        good = model.record("gossip", (floor, floor + 99, list(range(floor + 1, floor + 1 + count))))
        lines += [b"hear " + good[:length].hex().encode() for length in range(1, len(good))]
        lines += [b"hear " + (good + bytes(more)).hex().encode() for more in (1, 2, 7, 8, 9, 16, 100, 300)]
        lines += [b"hear " + (good + good).hex().encode()]
    expect(set(answered(command.copy(), lines)[0]) == {"16 0 Malformed"}, "the test's own model")
    expect_served(bench, lines, bench.path())
    expect(contents(bench.path()) == command.journal, "something was written")


@test
def rubbish_is_not_heard(bench):
    """Of every length that a line can hold."""
    lines = [b"hear " + bench.chance.randbytes(length).hex().encode() for length in range(1, 513)]
    lines += [b"hear " + (b"\x00" + bytes([length - 2]) + b"\x02" + bench.chance.randbytes(length - 3)).hex().encode() for length in range(3, 172)]
    expect_served(bench, lines + [b"standing"], bench.path())


@test
def every_byte_of_a_message_changed(bench):
    """Judged as the model does: no record any more, or another message."""
    command = model.Command()
    for stamp in (5, 9):
        command.call("gossip", (command.store.horizon, 10 * stamp, [stamp * 10 - 3]))
    lines = []
    for good in (model.record("gossip", told) for told in ((50, 99, [87, 95, 98]), (88, 216, []), (90, 2 ** 63, []))):
        for at in range(len(good)):
            for mask in (1, 2, 128, bench.chance.randrange(1, 256)):
                lines.append(b"hear " + (good[:at] + bytes([good[at] ^ mask]) + good[at + 1:]).hex().encode())
    codes = {answer.split()[0] for line in lines for answer in answered(command.copy(), [line])[0]}
    expect(codes == {"0", "1", "6", "7", "16"}, "the test's own lines are answered", codes)
    put(bench.path(), command.journal)
    bench.chance.shuffle(lines)
    expect_served(bench, lines + [b"known"], bench.path())
    lines = [line for line in lines if answered(command.copy(), [line])[0][0][:2] not in ("0 ", "1 ")]
    put(bench.path("other"), command.journal)
    expect_served(bench, lines + [b"known"], bench.path("other"))
    expect(contents(bench.path("other")) == command.journal, "something was written")


@test
def heard_is_in_the_journal_as_gossip(bench):
    """The bytes that were heard, behind what was there; so `gossip` writes them, and so they are listed and read again."""
    one, other = bench.path("heard"), bench.path("told")
    command, lines, as_gossip = model.Command(), [], []
    for _ in range(60):
        call = chances.some_change(bench.chance, command.store, 50)
        command.call(*call)
        as_gossip.append(model.line_of(*call).encode())
        lines.append(model.line_of(*(chances.heard(call) if call[0] == "gossip" else call)).encode())
    expect(lines != as_gossip, "the test's own lines hear nothing")
    expect_served(bench, lines, one)
    expect_served(bench, as_gossip, other)
    expect(contents(one) == contents(other) == command.journal, "heard and told journals differ")
    out, _ = bench.program.run(b"", "--records", one)
    expect_lines(lines_in(out), model.records(command.journal))
    expect_held(bench, one, command)
    message = model.record("gossip", (0, 9, [5]))
    expect_served(bench, [b"hear " + message.hex().encode()], bench.path())
    expect(contents(bench.path()) == b"\x01" + message, "a first message is in the journal as", shown(contents(bench.path())))


@test
def hearing_fills_a_journal(bench):
    """To its last byte, with its word at nine tenths, and then no more."""
    path, before = bench.path(), messages(2949)
    put(path, before.journal)
    lines = [hear(at, at + 1).encode() for at in range(2949, 3280)]
    command = expect_served(bench, lines, path)
    expect(len(command.journal) == 65521, "the test's own journal has", len(command.journal))
    stamp = command.store.horizon + 1
    last = [b"commit %d 0=1" % stamp, hear(stamp - 1, stamp).encode(), b"flush 0"]
    expect_served(bench, last, path)


@test
def hex_words_of_a_repository(bench):
    """Of either case, and every fault where it lies."""
    data = model.record("gossip", (0, 0xabcdef, [0xabcde])).hex()
    lines = [b"hear " + data.upper().encode(), b"hear " + data.encode(), b"\thear  " + data.encode() + b"# a word", b"hear " + data.encode() + b"\r"]
    lines += [b"hear " + b"0" * count for count in (1, 2, 3, 1022, 1023, 1024, 1025, 1026, 1027, 100000)]
    lines += [b"  hear " + b"F" * count + b"G" + b"f" * rest for count in (0, 1, 36, 37, 1023, 1024, 1025, 5000) for rest in (0, 1, 2)]
    lines += [b"hear", b"hear ", b"hear #00", b"hear 0#0", b"hear 00 00", b"hear 0 00", b"hear 0x00", b"hear -1", b"hear 00=1", b"hear \xc3\xa9",
              b"hear 0\x00", b"hear " + b"0" * 1026 + b" 5", b"hear " + b"0" * 1024 + b" 5", b"Hear 00", b"hear00", b"ask", b"ask ", b"ask x",
              b"ask 1x", b"ask 18446744073709551616", b"ask 0 0", b"ask -1", b"ask 0x5", b"Ask 5", b"ask5", b"ask 0000000000000000000000011259376"]
    lines += [b"hear 0" + bytes([byte]) for byte in range(256) if byte != 10]
    expect_served(bench, lines, bench.path())


@test
def asked_and_heard_by_chance(bench):
    for turn in range(4):
        path = bench.path() if turn % 2 else None
        scout, lines = model.Command(contents(path) if path else b""), []
        while len(lines) < 250:
            one = bench.chance.choice([chances.some_heard, chances.some_heard, chances.some_commit, chances.edgy_call])
            call = one(bench.chance, scout.store) if bench.chance.random() < 0.8 else ("ask", (chances.edge(bench.chance, scout.store),))
            line = model.line_of(*call).encode()
            if scout.store.horizon < 2 ** 40 or b"commit" not in line:
                scout.answer(line)
                lines.append(line)
        expect_served(bench, lines, path)


# ---- with a coordinator ----

@test
def a_gap_is_closed(bench):
    """The request behind a gap, served by a coordinator and heard; with more than 16 snapshots between, one after the other."""
    file, journal = bench.path("file"), bench.path("journal")
    coordinator, repository = bench.coordinator.talk(file), bench.program.talk(journal)
    coordinator.line(), repository.line()
    stamps = [10 * at for at in range(1, 51)]
    for stamp in stamps:
        expect(coordinator.ask("grant %d %d" % divmod(stamp, 256)) == "0 %d Done" % stamp, "not granted")
    beyond = coordinator.ask("message 500 600")
    expect(beyond == told(500, 600, []), "a message is", beyond)
    for horizon, curr, until in ((0, 160, stamps[:16]), (160, 320, stamps[16:32]), (320, 480, stamps[32:48]), (480, 600, stamps[48:])):
        gap = repository.ask("hear " + beyond.split()[3])
        expect(gap == "6 %d Gap %s" % (horizon, model.request(horizon, 600).hex()), "a message beyond a gap is answered", gap)
        expect(repository.ask("ask 600") == "0 19 Done " + gap.split()[3], "ask says another request than", gap)
        reply = coordinator.ask("serve " + gap.split()[3])
        expect(reply == told(horizon, curr, until), "the request is served with", reply)
        answer = repository.ask("hear " + reply.split()[3])
        expect(answer.startswith("0 "), "the reply is answered", answer)
        expect(repository.ask("hear " + reply.split()[3]).startswith("1 "), "the reply, heard again, is something")
    expect(repository.ask("hear " + beyond.split()[3]).startswith("1 "), "then the message is something")
    expect(repository.ask("known") == "0 0 Done 600 0 " + " ".join(map(str, stamps)), "at last is known", repository.ask("known"))
    same = coordinator.ask("serve " + repository.ask("ask 600").split()[3])
    expect(same == told(600, 600, []), "a request for nothing is served with", same)
    expect(repository.ask("hear " + same.split()[3]).startswith("1 "), "nothing is something")
    expect(repository.end() == (b"", b"") and coordinator.end() == (b"", b""), "more is said")


@test
def crossed_ways(bench):
    """A request that is heard and a message that is served: neither is what it should be, and nothing changes."""
    command, coordinator = a_journal(8), model.Coordinating()
    put(bench.path(), command.journal)
    request = command.answer(b"ask %d" % (command.store.horizon + 5)).split()[3]
    message = coordinator.answer(b"message 0 99").split()[3]
    expect_served(bench, [b"hear " + request.encode(), b"known"], bench.path())
    out, _ = bench.coordinator.run(b"serve %s\ngranted\n" % message.encode())
    expect_lines(lines_in(out), ["16 0 Malformed", "0 0 Done 0 0"])
    expect(contents(bench.path()) == command.journal, "something was written")


# ---- kind 4 in a journal ----

@test
def a_request_in_a_journal_is_malformed(bench):
    """At its offset, wherever it stands; cut short it is a torn tail like any other."""
    command = a_journal(8)
    for start, to in ((0, 0), (0, 99), (command.store.horizon, command.store.horizon + 9), (MOST, MOST)):
        request = model.request(start, to)
        for front, rest in ((b"\x01", b""), (command.journal, b""), (command.journal, model.record("flush", (0,))), (b"\x01", command.journal[1:])):
            clear(bench.path())
            put(bench.path(), front + request + rest)
            judged = model.restart(front + request + rest)[:2]
            expect(judged == (model.MALFORMED, len(front)), "the test's own model says", judged)
            expect_refused(bench, bench.path(), model.MALFORMED, len(front))
    for length in range(1, 19):
        code = expect_opened_as_judged(bench, bench.quick(), command.journal + model.request(5, 9)[:length], bench.bare)
        expect(code == model.DONE, "a request cut at", length, "is", code)
    out, _ = bench.program.run(b"", "--records", bench.path())
    expect(lines_in(out)[-1].startswith("# 16 1 Malformed"), "listed it ends with", shown(lines_in(out)[-1:]))
