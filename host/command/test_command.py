# Tests of the commands as a person uses them: lines in, answers out, killed at any moment and started again.
# Run: python3 test_command.py [PROGRAM] [--kills N] [--seed N] [--only TEXT] [--times]
# The program is the script two folders up where none is named. No test knows more of it than its lines and its files, and that a
# script's program stands beside it, in target/bin: some tests start that one themselves.
# A file of calls in lines/ can be tried by hand: jibcradle < NAME.calls.txt | diff - NAME.answers.txt
# and one of orders: jibcradle --coordinator < NAME.orders.txt | diff - NAME.answers.txt

import argparse
import os
import random
import shutil
import subprocess
import sys
import tempfile
import time

# each of these names its tests to the bench, in this order
import on_lines
import on_words
import on_kills
import on_files
import on_tails
import on_moves
import on_fullness
import on_records
import on_locks
import on_terminals
import on_system_calls
import on_scripts
import on_builds
import on_coordinators
import on_states
import on_exchanges
import on_worlds
from bench import TESTS, Bench, Skipped
from running import Failed, Program

HERE = os.path.dirname(os.path.abspath(__file__))


def verdict(function, bench):
    """None where the test was passed over, else whether it passed; and why not."""
    try:
        function(bench)
    except Skipped as why:
        return None, str(why)
    except Failed as why:
        return False, str(why)
    except Exception as why:  # a fault of the test's own, or an answer that it cannot read
        return False, "%s: %s" % (type(why).__name__, why)
    return True, ""


def run_one(name, function, program, tops, arguments):
    """Runs a test in folders of its own and prints its line."""
    began = time.monotonic()
    bench = Bench(program, *map(folder_in, tops), "%s %s" % (arguments.seed, name), arguments.kills)
    passed, why = verdict(function, bench)
    words = bench.words + ["%.1f s" % (time.monotonic() - began)] * arguments.times
    if passed is False:
        words.append("seed %d" % arguments.seed)
    start = {True: "ok ", False: "FAILED ", None: "skipped "}[passed]
    print(start + name + (": " + why if why else "") + (" (%s)" % ", ".join(words) if words else ""), flush=True)
    return passed


def folder_in(top=None):
    """A new folder that other users may enter."""
    folder = tempfile.mkdtemp(prefix="command-", dir=top)
    os.chmod(folder, 0o755)
    return folder


def quick_top():
    """A folder in memory where there is one, else one on the disk."""
    return folder_in("/dev/shm" if os.access("/dev/shm", os.W_OK) else None)


def warm_up(program):
    """The script builds each program on its first use, which may take minutes: not within a test's patience."""
    try:
        program.start().communicate(b"", timeout=3600)
        program.coordinator().start().communicate(b"", timeout=3600)
    except (OSError, subprocess.TimeoutExpired) as why:
        sys.exit("FAILED to start the program: %s\ncommand: 0 passed, 1 failed" % why)


def arguments_given():
    parser = argparse.ArgumentParser(description="Tests of the command as a person uses it.")
    parser.add_argument("program", nargs="?", default=os.path.join(HERE, "..", "..", "jibcradle"))
    parser.add_argument("--kills", type=int, default=300)
    parser.add_argument("--seed", type=int, default=None)
    parser.add_argument("--only", default="", help="runs the tests whose names have this in them")
    parser.add_argument("--times", action="store_true", help="tells the seconds of each test")
    arguments = parser.parse_args()
    if arguments.seed is None:
        arguments.seed = random.SystemRandom().randrange(10 ** 6)
    return arguments


def main():
    arguments = arguments_given()
    program, results = Program(arguments.program), []
    warm_up(program)
    tops = [folder_in(), quick_top()]
    try:
        for name, function in TESTS:
            if arguments.only in name:
                results.append(run_one(name, function, program, tops, arguments))
    finally:
        for top in tops:
            shutil.rmtree(top, ignore_errors=True)
    print("command: %d passed, %d failed" % (results.count(True), results.count(False)))
    return 1 if False in results else 0


if __name__ == "__main__":
    sys.exit(main())
