# Starting a command, speaking with it line by line, and killing it.

import os
import select
import subprocess
import time

PATIENCE = 30.0  # seconds for one answer or one run; only a hanging program needs them


class Failed(Exception):
    """A test's expectation that does not hold."""

    def __str__(self):
        return " ".join(str(word) for word in self.args)


def expect(holds, *words):
    if not holds:
        raise Failed(*words)


def shown(data, most=300):
    """Bytes or text for a message, its middle left out where it is long."""
    text = repr(data)
    return text if len(text) <= most else text[:most // 2] + " ... " + text[-most // 2:]


class Program:
    """The program under test, the words that it always has, and how to start it."""

    def __init__(self, path, *words):
        self.path, self.words = os.path.abspath(path), words

    def built(self, name):
        """A program that the script starts."""
        return os.path.join(os.path.dirname(os.path.realpath(self.path)), "target", "bin", name)

    def is_script(self):
        """A script gives a status; the program that it starts has none."""
        with open(self.path, "rb") as file:
            return file.read(2) == b"#!" and os.path.exists(self.built("jibcradle"))

    def bare(self):
        """The program that the script starts, without the script: its number is the one we know. A path that is no script
        is the program itself."""
        return Program(self.built("jibcradle")) if self.is_script() else self

    def coordinator(self):
        """The coordinator's command; of a path that is no script, the program beside it."""
        return Program(self.path, "--coordinator") if self.is_script() else self.bare_coordinator()

    def bare_coordinator(self):
        beside = os.path.join(os.path.dirname(os.path.realpath(self.path)), "coordinating")
        return Program(self.built("coordinating") if self.is_script() else beside)

    def start(self, *arguments, **options):
        pipes = dict(stdin=subprocess.PIPE, stdout=subprocess.PIPE, stderr=subprocess.PIPE)
        pipes.update(options)
        return subprocess.Popen([self.path, *self.words, *arguments], **pipes)

    def ended(self, data, *arguments, **options):
        """Feeds all of the data, waits for the end, and gives the status, standard output and standard error."""
        process = self.start(*arguments, **options)
        try:
            out, err = process.communicate(data, timeout=PATIENCE)
        except subprocess.TimeoutExpired:
            process.kill()
            out, err = process.communicate()
            raise Failed("the program did not end; it said", shown(out), shown(err))
        return process.returncode, out, err

    def run(self, data, *arguments, **options):
        """The same, where no signal ends it: gives standard output and standard error."""
        status, out, err = self.ended(data, *arguments, **options)
        expect(0 <= status < 128, "a signal ended the program; its status is", status, shown(err))
        return out, err

    def killed(self, data, delay, *arguments):
        """Feeds the data, kills what was started some seconds after its start, and gives standard output and error. A script's
        program dies with it a moment later: both outputs end when it is dead."""
        process = self.start(*arguments)
        began = time.monotonic()
        try:
            os.write(process.stdin.fileno(), data)
        except BrokenPipeError:
            pass
        time.sleep(max(0.0, delay - (time.monotonic() - began)))
        process.kill()
        out, err = drained(process)
        return out, err

    def talk(self, *arguments, **options):
        return Talk(self.start(*arguments, **options))


def drained(process):
    """What a killed program had said, whole."""
    try:
        return rest_of(process.stdout), rest_of(process.stderr)
    finally:
        for pipe in (process.stdin, process.stdout, process.stderr):
            try:
                pipe.close()
            except BrokenPipeError:
                pass
        process.wait()


def rest_of(pipe):
    """All that comes until nobody has the other end of the pipe."""
    said, until = b"", time.monotonic() + PATIENCE
    while True:
        ready, _, _ = select.select([pipe], [], [], max(0.0, until - time.monotonic()))
        expect(ready, "a program outlives its kill; it said", shown(said))
        more = os.read(pipe.fileno(), 65536)
        if not more:
            return said
        said += more


class Talk:
    """A program that lives while we ask and wait for each answer."""

    def __init__(self, process):
        self.process = process
        self.pid = process.pid
        self.rest = b""

    def line(self, patience=PATIENCE):
        """The next line of the answer without its end, or None when there are no more."""
        until = time.monotonic() + patience
        while b"\n" not in self.rest:
            ready, _, _ = select.select([self.process.stdout], [], [], max(0.0, until - time.monotonic()))
            expect(ready, "no answer within", patience, "s, only", shown(self.rest))
            more = os.read(self.process.stdout.fileno(), 65536)
            if not more:
                return None
            self.rest += more
        line, self.rest = self.rest.split(b"\n", 1)
        return line.decode("latin-1")

    def send(self, text):
        os.write(self.process.stdin.fileno(), text.encode("latin-1"))

    def ask(self, text):
        try:
            self.send(text + "\n")
        except BrokenPipeError:
            return None
        return self.line()

    def end(self):
        """Closes the input, waits for the end, and gives what was left on both outputs."""
        try:
            out, err = self.process.communicate(timeout=PATIENCE)
        except subprocess.TimeoutExpired:
            self.kill()
            raise Failed("the program did not end with its input")
        return self.rest + out, err

    def kill(self):
        self.process.kill()
        return drained(self.process)


def contents(path):
    """A file's bytes; a file that does not exist has none."""
    try:
        with open(path, "rb") as file:
            return file.read()
    except FileNotFoundError:
        return b""


def put(path, data):
    with open(path, "wb") as file:
        file.write(data)
