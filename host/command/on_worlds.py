# Tests of a world: a coordinator and two repositories as processes, and between them a network that drops, repeats, shuffles and
# damages what they send each other. Any of the three is killed at any moment, in the middle of its calls too, and started again.

import time
from collections import Counter

import chance as chances
import model
from bench import clear, opened, survivors, test
from on_coordinators import expect_left
from running import Failed, contents, expect, put, shown

KILLS = 25  # of one world: a coordinator has 64 stamps to grant

# ---- one of the three ----

class Node:
    """A program on its file, started where it is needed, and the model of what it holds. The script stands before it at times."""

    def __init__(self, bench, path, programs, command):
        self.bench, self.chance, self.path, self.programs = bench, bench.chance, path, programs
        self.command, self.talk = command, None
        self.unheard = 0  # changes that were kept before a kill, and their answers lost

    def kept(self):
        return self.bytes_of(self.command)

    def first_line(self):
        return opened(self.path, model.DONE, len(self.kept()))

    def start(self):
        bare, script = self.programs
        return (script if self.chance.random() < 0.06 else bare).talk(self.path)

    def ask(self, call):
        """The answer, which must be the model's."""
        if self.talk is None:
            self.talk = self.start()
            line = self.talk.line()
            expect(line == self.first_line(), "the first line is", shown(line), "and should be", self.first_line())
        got, wanted = self.talk.ask(model.line_of(*call)), self.command.call(*call)
        expect(got == wanted, shown(model.line_of(*call)), "is answered", shown(got), "and should be", shown(wanted))
        return wanted

    def kill(self, calls):
        """Kills it while it starts or while it serves calls, in the middle of one mostly. Gives the answers that were heard."""
        talk, said = self.talk, ""
        if talk is None:
            talk = self.start()
        else:
            said = self.first_line() + "\n"
        talk.send("".join(model.line_of(*call) + "\n" for call in calls))
        if not said and self.chance.random() < 0.5:
            time.sleep(self.chance.uniform(0, 0.005))
        else:
            said += "".join("%s\n" % talk.line() for _ in range(self.chance.randint(0, len(calls))))
        out, err = talk.kill()
        self.talk, said = None, said + (talk.rest + out).decode("latin-1")
        self.expect_words(err)
        answers, steps = said.split("\n")[1:-1], self.foreseen(calls)
        states = [self.kept()] + [self.bytes_of(after) for _, _, after in steps]
        self.command = self.survivor(steps, said)
        self.unheard += self.kept() != states[len(answers)]
        return answers

    def expect_words(self, err):
        """Of the lock that a killed one left, and of nothing else."""
        for word in err.decode("latin-1").split("\n")[:-1]:
            expect(word.startswith(self.path + ".lock"), "standard error says", shown(word))

    def foreseen(self, calls):
        """Calls one after the other, what each must be answered, and the model after it."""
        steps, scout = [], self.command.copy()
        for call in calls:
            answer = scout.call(*call)
            steps.append((call, answer, scout))
            scout = scout.copy()
        return steps

    def end(self):
        out, err = self.talk.end()
        self.talk = None
        expect(out == b"", "more is said at the end:", shown(out))
        self.expect_words(err)
        expect_left(self.path)


class House(Node):
    """A repository on its journal."""

    def bytes_of(self, command):
        return command.journal

    def survivor(self, steps, said):
        grown, used = [], len(self.command.journal)
        for call, answer, after in steps:
            grown.append((call, answer, after.journal[used:]))
            used = len(after.journal)
        return survivors(self.path, self.command, grown, b"", said.encode("latin-1"))

    def some_call(self):
        """A commit or a flush."""
        one = chances.some_commit if self.chance.random() < 0.7 else chances.some_flush
        return one(self.chance, self.command.store)


class Granter(Node):
    """The coordinator on its file."""

    def bytes_of(self, command):
        return command.file

    def survivor(self, steps, said):
        """The state of the last call that was answered, or of the one after it: nothing else can be in the file."""
        *whole, partial = said.split("\n")
        expect(whole[:1] in ([], [self.first_line()]), "the first line is", shown(whole[:1]))
        count = max(len(whole) - 1, 0)
        for (call, answer, _), got in zip(steps, whole[1:]):
            expect(got == answer, shown(model.line_of(*call)), "is answered", shown(got), "and should be", shown(answer))
        states = [self.command] + [after for _, _, after in steps]
        possible = states[count:count + 2] if whole else states[:1]
        if partial and whole:
            expect(count < len(steps) and steps[count][1].startswith(partial), "the last answer begins", shown(partial))
            possible = possible[1:]
        left = [state for state in possible if state.file == contents(self.path)]
        expect(left, "the file is", shown(contents(self.path)), "and could be", shown([state.file for state in possible]))
        return left[0]


# ---- all of them ----

class World:
    """The three, what was written and is on its way, and all that was ever answered. Eyes are what it looks at: what the coordinator
    remembers, what the repositories know, how they answer what they hear."""

    def __init__(self, bench, place, number, eyes=("remembered", "known", "heard")):
        self.bench, self.chance, self.eyes = bench, bench.chance, eyes
        path = lambda name: place("%s%d" % (name, number))
        self.granter = Granter(bench, path("file"), (bench.bare_coordinator, bench.coordinator), model.Coordinating())
        self.houses = [House(bench, path(name), (bench.bare, bench.program), model.Command()) for name in ("north", "south")]
        self.messages, self.requests = [], []
        self.stamps, self.curr = set(), 0     # every stamp and the largest curr that was ever answered
        self.codes = Counter()

    # ---- the network

    def sends(self, way, data):
        """Puts bytes on their way; one in eight is lost. Whatever is on its way is picked in any order, again and again."""
        if self.chance.random() < 0.875:
            way.append(data)

    def picked(self, way):
        """Mostly one of the last, at times any."""
        return self.chance.choice(way[-4:] if self.chance.random() < 0.5 else way)

    def note(self, node, call, answer):
        """An answer that was heard: what it promises, and what it sends."""
        name, words = call[0], answer.split()
        code = int(words[0])
        if name == "grant" and code == model.DONE:
            self.stamps.add(int(words[1]))
        elif name in ("message", "serve") and code == model.DONE:
            data = bytes.fromhex(words[3])
            told = model.message_in(data)
            expect(told, shown(model.line_of(*call)), "is answered by no message:", answer)
            self.curr = max(self.curr, told[1])
            self.sends(self.messages, data)
        elif name == "ask" and code == model.DONE:
            self.sends(self.requests, bytes.fromhex(words[3]))
        elif name == "hear":
            self.note_heard(call[1][0], answer)

    def note_heard(self, data, answer):
        code = int(answer.split()[0])
        self.codes[code] += 1
        if model.message_in(data) is None:
            expect(answer == "16 0 Malformed", "a damaged message is answered", answer)
        elif "heard" in self.eyes:
            expect(code in (model.DONE, model.NOTHING, model.GAP, model.NO_ROOM), "a true message is answered", answer)
        if code == model.GAP:
            self.sends(self.requests, bytes.fromhex(answer.split()[3]))

    # ---- calls by chance

    def some_order(self):
        """A call of the coordinator: a grant, a message, or a request on its way, true or damaged."""
        coordinator = self.granter.command.coordinator
        kind = self.chance.choices(["grant", "message", "serve", "damaged"], [5, 3, 5, 1])[0]
        if kind == "grant":
            return "grant", divmod(coordinator.top() + self.chance.choice([0, 1, 1, 2, 40, 300]), 256)
        if kind == "message" or not self.requests:
            prev = self.chance.choice([0, self.curr] + [house.command.store.horizon for house in self.houses] + coordinator.granted)
            clock = max(prev, self.chance.choice([coordinator.top()] * 2 + coordinator.granted)) + self.chance.choice([0, 0, 1, 30])
            return "message", (prev, clock)
        data = self.picked(self.requests)
        return "serve", (chances.damaged(self.chance, data) if kind == "damaged" else data,)

    def some_house_call(self, house):
        """A call of a repository: what it hears, true or damaged; a request; a change of its own."""
        kind = self.chance.choices(["hear", "damaged", "ask", "own"], [9, 2, 2, 4])[0]
        if kind == "ask":
            return "ask", (max(self.curr, house.command.store.horizon) + self.chance.choice([0, 0, 1]),)
        if kind == "own" or not self.messages:
            return house.some_call()
        data = self.picked(self.messages)
        return "hear", (chances.damaged(self.chance, data) if kind == "damaged" else data,)

    def some_call(self, node):
        return self.some_order() if node is self.granter else self.some_house_call(node)

    # ---- what happens

    def turn(self):
        node = self.chance.choice(self.nodes())
        call = self.some_call(node)
        self.note(node, call, node.ask(call))

    def kill(self):
        """Of those calls that it was sent some are answered, and one more may be done. One that is down is killed in its start."""
        node = self.chance.choice([node for node in self.nodes() if node.talk is None] or self.nodes())
        calls = [self.some_call(node) for _ in range(self.chance.choice([0, 1, 2, 6, 20]))]
        for call, answer in zip(calls, node.kill(calls)):
            self.note(node, call, answer)

    def look(self):
        """What the coordinator was heard to say it still says, and each repository knows its stamps up to the horizon and no others."""
        _, _, _, count, sent, *granted = self.granter.ask(("granted", ())).split()
        granted, sent = [int(stamp) for stamp in granted], int(sent)
        expect(len(granted) == int(count), "granted tells", count, "and shows", len(granted))
        if "remembered" in self.eyes:
            expect(self.stamps <= set(granted), "the coordinator has forgotten", sorted(self.stamps - set(granted)))
            expect(sent >= self.curr, "the coordinator has sent", self.curr, "and says", sent)
        for house in self.houses:
            horizon, known = self.known(house)
            wanted = [stamp for stamp in granted if stamp <= horizon]
            expect("known" not in self.eyes or known == wanted, "a repository knows", known, "up to", horizon, "and granted are", wanted)
        return granted

    def known(self, house):
        _, _, _, horizon, _, *known = house.ask(("known", ())).split()
        return int(horizon), [int(stamp) for stamp in known]

    def settle(self):
        """The network is good: each repository asks, is served and hears until it is at the last clock stamp."""
        last = self.granter.command.coordinator.top() + 1
        for house in self.houses:
            for turn in range(6):
                request = house.ask(("ask", (last,))).split()[3]
                message = self.granter.ask(("serve", (bytes.fromhex(request),))).split()[3]
                answer = house.ask(("hear", (bytes.fromhex(message),)))
                if answer.startswith("1 "):
                    break
                expect(answer.startswith("0 "), "on a good network a message is answered", answer)
            granted = self.look()
            expect(self.known(house) == (last, granted), "at last a repository knows", self.known(house), "and granted are", granted, "up to", last)

    def run(self, kills):
        while kills:
            if self.chance.random() < 0.04:
                for _ in range(min(kills, self.chance.choice([1, 1, 1, 2]))):
                    self.kill()
                    kills -= 1
            else:
                self.turn()
            if self.chance.random() < 0.4:
                self.look()
        self.settle()
        self.end()

    def end(self):
        for node in self.nodes():
            node.end()
            clear(node.path)

    def stop(self):
        """After a failure: none is left running."""
        for node in self.nodes():
            if node.talk:
                node.talk.kill()

    def nodes(self):
        return [self.granter] + self.houses


@test
def a_coordinator_and_two_repositories(bench):
    """Worlds in memory, and every other one on the disk, where calls take longer and kills come in their middle."""
    codes, unheard, kills = Counter(), 0, 2 * bench.kills
    for number, start in enumerate(range(0, kills, KILLS)):
        world = World(bench, bench.path if number % 2 else bench.quick, number)
        try:
            world.run(min(KILLS, kills - start))
        except Failed as why:
            raise Failed("in world", number + 1, "with", len(world.stamps), "stamps:", why)
        finally:
            world.stop()
        codes, unheard = codes + world.codes, unheard + sum(node.unheard for node in world.nodes())
    bench.tell("%d worlds, %d kills, %d changes kept whose answer was lost, heard %s"
               % (number + 1, kills, unheard, ", ".join("%d x %d" % (codes[code], code) for code in sorted(codes))))
    met = {model.DONE, model.NOTHING, model.GAP, model.MALFORMED} <= set(codes)
    expect(met or kills < 100, "not every code was met", sorted(codes))


# ---- the test's own test ----

class Forgetful(World):
    """Where its coordinator is down its file is put back to one of the states before, and the model with it."""

    def __init__(self, *arguments, **options):
        super().__init__(*arguments, **options)
        self.states = [b""]

    def kill(self):
        super().kill()
        node = self.granter
        before = [state for state in self.states if state != node.kept()]
        self.states.append(node.kept())
        if node.talk is None and before:
            put(node.path, self.chance.choice(before))
            node.command = model.Coordinating(contents(node.path))


@test
def a_coordinator_that_forgets_is_found_out(bench):
    """By each eye alone: it no longer says what it said, a repository knows what it did not grant, and a true message conflicts."""
    for number, (eye, words) in enumerate((("remembered", "the coordinator has "), ("known", "a repository knows "),
                                           ("heard", "a true message is answered 7 "))):
        for turn in range(3):
            world = Forgetful(bench, bench.quick, 10 * number + turn, eyes=(eye,))
            try:
                world.run(200)
            except Failed as why:
                expect(str(why).startswith(words), "it is found out otherwise:", why)
            else:
                raise Failed("200 kills of a coordinator that forgets, and nothing is", eye)
            finally:
                world.stop()
