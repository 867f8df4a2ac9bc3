#!/usr/bin/env python3
"""Writes what crates/desk_cases replays: scripts (its stdin) and their answers (its stdout). For the lesson in crates/desk/stdin
it writes the answers, crates/desk/stdout.

    python3 vectors/desk.py ORACLE

ORACLE is the original Rust (src/sender/ as it is) behind a program that reads the language of docs/SCRIPTS.md, one call a
line. Every call that is accepted is given to it, and its answers are stored; on the way they are held to those of the model,
oracle/tools/model.py. The answers to four kinds of lines are not the Rust's:

- `refused N` is the model's: the Rust has no such refusals and is not given these calls. `refused` alone answers a `drain`
  whose numbers are not admitted.
- `error` is stated here, for lines that cannot be read and for calls where there is no sender.
- Those to commands on records are stated in vectors/record.py: the Rust has no records.
- In the scripts of oracle/claims on which the two differ (docs/DIFFERENCES.md), the answers are the model's.

The random scripts are those of oracle/tools/gen.py; another Python than 3.11 may draw others.
"""
import collections
import itertools
import pathlib
import random
import subprocess
import sys

ROOT = pathlib.Path(__file__).resolve().parent.parent
CASES, LESSON = ROOT / "crates" / "desk_cases", ROOT / "crates" / "desk"
sys.path.insert(0, str(ROOT / "oracle" / "tools"))

import record
import sizes
from gen import generate
from model import SECOND, Script

STORE = 65536  # the payloads that are stored here lie in the first bytes of each store
SCRIPTS = 300  # random scripts
LONGEST = 9000  # bytes of such a script and its answers
HOUR = 3600 * SECOND
NEVER = 2**64 - 1

# A line, who answers it, and the answer's lines if they are known before: "rust" (the model must agree), "model" (it refuses),
# "ours" (the model, where the Rust answers otherwise), or "stated" (here; a line without an answer has no lines).
Case = collections.namedtuple("Case", "line who answer", defaults=(None,))


def rust(*lines):
    return [Case(line, "rust") for line in lines]


def model(*lines):
    return [Case(line, "model") for line in lines]


def error(*lines):
    return [Case(line, "stated", ["error"]) for line in lines]


def silent(*lines):
    return [Case(line, "stated", []) for line in lines]


# Random scripts.

def within(answers):
    """Does every payload lie in the program's stores?"""
    packets = [answer.split() for answer in answers if answer.startswith("packet")]
    return all(packet[10] == "-" or int(packet[9]) + int(packet[10]) <= STORE for packet in packets)


def script(seed):
    """A seed's calls; those that the model refuses are not for the Rust."""
    return [Case(line, "model" if answer.startswith("refused") else "rust", [answer]) for line, answer in zip(*generate(seed))]


def seeds():
    """Those whose scripts are short enough and stay within the stores; not those that turn an allocator round."""
    for seed in itertools.count(1):
        if seed % 1000 != 999:
            lines, answers = generate(seed)
            if within(answers) and sum(map(len, lines + answers)) + 2 * len(lines) <= LONGEST:
                yield seed


def random_scripts():
    for seed in itertools.islice(seeds(), SCRIPTS):
        yield from silent(f"# seed {seed}") + script(seed)


# Scripts with stated answers.

def stated_script(name):
    """The calls of a file, each with the answers on the lines `#= ` after it; comments stay."""
    found = []
    for line in (ROOT / "oracle" / name).read_text().splitlines():
        if line.startswith("#= "):
            found[-1].answer.append(line[3:])
        else:
            found.append(Case(line, "stated", []))
    return found


def refusals():
    for case in stated_script("refusals.txt"):
        other = case.answer and case.answer[0].split()[0] in ("refused", "error")
        yield case._replace(who="stated" if not case.answer else "model" if other else "rust")


def claims():
    """Where the Rust and the model answer alike, and where not."""
    for name in ("bench-sheet", "block-length", "queue-order"):
        yield from (case._replace(who="rust") if case.answer else case for case in stated_script(f"claims/{name}.txt"))
    for name in ("pacing", "past-64-bits", "refused-add", "zero-sizes"):
        yield from silent(f"# claims/{name}.txt, without its comments")
        yield from (Case(case.line, "ours") for case in stated_script(f"claims/{name}.txt") if case.answer)


# Scripts by hand.

SETUP = f"setup 4 2 2 2 0 7 16 1 0 {HOUR} delay {NEVER} 1000 1000"
# Each kind of call that needs a sender: `error` where there is none, even if it would be refused where there is one.
CALLS = ["reserve", "release 1", "add 0 0 4 - - 1 none 0 none 0 - 0 -", f"add {2**32} 0 4 - - 1 none 0 none 0 - 0 -",
         "remove 1", "trigger 1 -", "trigger 1 5", "publish 0 0 4", "complete", "listed 1", "transfers 1", "runfdt 0 0 4",
         "runfdt 0 0 0", "run 0 0", "run 9 0"]


def first_lines():
    """No set-up was made yet."""
    yield from silent("# before any set-up")
    yield from error(*CALLS, "hello", "setup", "setup 4 2 2")
    yield from rust("partition 10 2 2", "blocklength 10 2 2 2", "rawlength 2 1 2 10 2 2", "drain 10 2 2 2")
    yield from error("reserve")
    yield from model(SETUP.replace("setup 4", "setup 0"))
    yield from error(*CALLS)
    yield from rust(SETUP, "reserve")


def refused_setups():
    """One word changed in a set-up that is accepted. No sender is left, whatever was there before."""
    yield from silent("# a refused set-up leaves no sender")
    words = SETUP.split()
    changes = [(at, value) for at, values in (
        (1, (0, 65536, 2**16 + 4, 2**32 + 4, NEVER)), (2, (0, 65536, 2**16 + 2, 2**32 + 2, NEVER)),
        (3, (0, 17, 2**8 + 2, 2**16 + 2, 2**32 + 2, NEVER)), (5, (2**32, 2**32 + 7, NEVER)), (6, (2**32, NEVER)),
        (7, (0, 8, 15, 17, 24, 80, 112, 2**8 + 16, 2**32 + 16, NEVER)), (9, (2**20, 2**32, NEVER)),
        (13, (2**40 + 1, 2**41, NEVER)), (14, (2**40 + 1, NEVER))) for value in values]
    lines = [" ".join(words[:at] + [str(value)] + words[at + 1:]) for at, value in changes]
    # no session, and more than four
    rest = " ".join(words[7:])
    lines += [f"setup 4 2 2 {n} {' '.join(['7'] * n)} {rest}".replace("  ", " ") for n in (0, 5, 6, 12)]
    for at, line in enumerate(lines):
        yield from rust(SETUP, "reserve")
        yield from model(line)
        yield from error(CALLS[at % len(CALLS)], "reserve")
    yield from rust(SETUP, "reserve")
    # Two in a row, and a line that cannot be read after it.
    yield from model(lines[0], lines[0]) + error("setup", "reserve") + rust(SETUP, "reserve")


def not_cut():
    """Numbers that would mean something if they were cut to 8, 16 or 32 bits."""
    yield from silent("# numbers are not cut to fewer bits")
    yield from rust(SETUP, "reserve", "add 0 0 8 - - 1 none 0 none 0 - 0 1", "add 7 8 0 - - 1 none 0 none 0 - 0 -")
    for more in (2**8, 2**16, 2**32, 2**63):
        yield from rust(*(f"{name} {more + 1}" for name in ("listed", "transfers", "remove")), f"trigger {more + 1} -")
        yield from model(f"release {more + 3}", f"run {more} 0", f"run {more + 1} 0", f"runfdt 0 {more} 1" if more > 2**8 else "run 2 0")
        yield from model(f"add 0 20 1 - - 1 none 0 none 0 - 0 {more + 3}")
    for more in (2**16, 2**32, 2**63):
        yield from model(f"add 0 20 1 {more + 1} 1 1 none 0 none 0 - 0 -", f"add 0 20 1 1 {more + 1} 1 none 0 none 0 - 0 -")
        yield from model(f"add 0 {more + 20} 1 - - 1 none 0 none 0 - 0 -", f"add 0 20 {more + 1} - - 1 none 0 none 0 - 0 -")
        yield from model(f"publish 0 {more} 1", f"publish 0 0 {more + 1}", f"runfdt 0 0 {more + 1}")
    yield from model(f"add {2**32} 20 1 - - 1 none 0 none 0 - 0 -", f"add {2**32 + 7} 20 1 - - 1 none 0 none 0 - 0 -")
    yield from model(f"add {NEVER} 20 1 0 1 1 none 0 none 0 - 0 -", f"run {NEVER} 0")
    yield from rust("listed 0", "listed 1", "transfers 1", "publish 5 0 1", "runfdt 5 1 1", "run 0 5", "run 1 5", "reserve")
    # the largest numbers that are accepted
    yield from rust(f"add 0 20 1 65535 65535 {2**32 - 1} interval {NEVER} none 0 {2**63 - 1} 1 -", "run 0 5",
                    f"run 0 {2**63 - 1}", f"run 0 {2**63 - 1}", "transfers 4")
    yield from rust(f"setup 65535 65535 16 4 0 {2**32 - 1} 0 7 64 {NEVER} {2**20 - 1} {NEVER} interval {NEVER} {2**40} {2**40}",
                    "reserve", "reserve", f"release {NEVER}", f"add {2**32 - 1} 0 1 - - 1 none 0 none 0 - 0 -",
                    f"publish {2**63 - 1} 0 1", "runfdt 0 1 1", f"publish {2**63 - 1} 1 1", "runfdt 0 2 1", "run 1 0")


def store_ends():
    """Payloads up to the last byte of the program's stores."""
    yield from silent("# the last bytes of the stores")
    for length in (STORE, 2**40):
        yield from rust(f"setup 4 2 2 1 0 16 1 0 {HOUR} delay {NEVER} {length} {length}",
                        f"add 0 {STORE - 9} 9 - - 1 none 0 none 0 - 0 -", f"publish 0 {STORE - 6} 6")
        yield from rust(*["runfdt 0 0 1"] * 3, *["run 0 0"] * 4)
    yield from rust(f"setup 65535 1 1 1 0 16 1 0 {HOUR} delay {NEVER} {STORE} {STORE}", f"add 0 0 {STORE} - - 1 none 0 none 0 - 0 -",
                    f"publish 0 0 {STORE}", *["runfdt 0 0 0"] * 3, *["run 0 0"] * 3)


def rare():
    """What random scripts of this length seldom show."""
    start = f"setup 1 4 2 1 0 16 1 0 {HOUR} delay {NEVER} 100 100"
    yield from silent("# unequal blocks: one of the window is ahead of the other")
    yield from rust(start, "add 0 0 13 - - 1 none 0 none 0 - 0 -", "publish 0 0 1", *["runfdt 0 1 1"] * 2, *["run 0 0"] * 14)
    yield from silent("# sent once whole, so it may be stopped, though the count of its round is 0 again")
    yield from rust(start, "add 0 0 3 - - 1 delay 5 none 0 - 0 -", "publish 0 0 1", *["runfdt 0 1 1"] * 2, *["run 0 0"] * 4,
                    "transfers 1", "run 0 5", "run 0 6", "remove 1", "run 0 6", "run 0 6", "reserve")
    yield from silent("# never sent whole and not to be stopped, so it is sent to its end; the other is cut short")
    yield from rust(start, "add 0 0 3 - - 1 none 0 none 0 - 0 -", "add 0 3 3 - - 1 none 0 none 0 - 1 -", "publish 0 0 1",
                    *["runfdt 0 1 1"] * 2, "run 0 0", "remove 1", *["run 0 0"] * 3, "remove 2", *["run 0 0"] * 2, "reserve")


# Lines that cannot be read.

COMMANDS = ["setup 4 2 2 2 0 7 16 1 0 5 delay 5 100 100", "reserve", "release 1", "add 0 0 4 2 2 1 delay 5 within 1000000000 3 1 9",
            "add 0 0 4 - - 1 none 0 none 0 - 0 -", "remove 1", "trigger 1 5", "trigger 1 -", "publish 5 0 1", "complete", "listed 1",
            "transfers 1", "runfdt 5 0 1", "run 0 5", "partition 10 2 2", "blocklength 10 2 2 0", "rawlength 2 1 2 10 2 0", "drain 10 2 2 2"]
NO_NUMBERS = ["x", "ten", "1x", "x1", "+1", "-1", "--", "1.0", "1,", "0x1", "1e3", "1_0", "'1'", "1-", "*", "#", "1#"]
TOO_LARGE = [str(2**64), str(2**64 + 1), str(2**64 + 2**63), str(10 * 2**64), str(2**128 + 1), "9" * 30, f"000{2**64}"]


def may_be_none(words, at):
    """May `-` stand there? An object's own E and B come together, so not alone in one of the two places."""
    return words[0] == "add" and at in (11, 13) or words[0] == "trigger" and at == 2


def faults(words, at):
    """What cannot stand in the place of a word, in groups."""
    word = words[at]
    if at == 0:
        return [[word.upper(), word.title(), word[:-1], word + "s", "x" + word, "-" + word, word[0], word + "#", word + word]]
    if word in ("none", "delay", "interval", "within", "at"):
        wrong = ["none", "within", "at"] if words[0] == "setup" else ["within", "at"] if at == 7 else ["delay", "interval"]
        return [["x", "0", "-", word.upper(), word[:-1], word + "s"], wrong]
    if words[0] == "add" and at == 12:
        return [["2", "10", "-", "x", "-1", "yes", str(2**64), str(2**32)]]
    if words[0] == "add" and at in (4, 5) and word == "-":
        return [["1", "65535"], NO_NUMBERS]
    return [NO_NUMBERS, TOO_LARGE] + ([] if may_be_none(words, at) else [["-"]])


def with_word(words, at, word):
    return " ".join(words[:at] + [word] + words[at + 1:])


def faulty(rng, line):
    """The line with one fault."""
    words = line.split()
    kind = rng.randrange(5)
    if kind == 0 and len(words) > 1:
        return " ".join(words[:-1])
    if kind == 1:
        return line + " " + rng.choice(["0", "1", "-", "x", "# more"])
    at = rng.randrange(len(words))
    return with_word(words, at, rng.choice(rng.choice(faults(words, at))))


def every_fault(rng):
    """Each command with each kind of fault in each place."""
    for line in COMMANDS:
        words = line.split()
        yield from (" ".join(words[:n]) for n in range(1, len(words)))
        yield from (line + " 0", line + " -", line + " # more", line + " 0 0 0")
        for at in range(len(words)):
            for group in faults(words, at):
                yield with_word(words, at, rng.choice(group))
    # numbers that have only 32 bits
    yield from (f"add 0 0 4 - - {2**32} none 0 none 0 - 0 -", f"blocklength 10 2 2 {2**32}", f"rawlength 2 1 2 10 2 {2**32}")
    # the number of sessions and that of priorities differ
    tail = "16 1 0 5 delay 5 100 100"
    yield from (f"setup 4 2 2 1 0 7 {tail}", f"setup 4 2 2 3 0 7 {tail}", f"setup 4 2 2 0 0 {tail}", f"setup 4 2 2 5 0 0 0 0 {tail}",
                f"setup 4 2 2 6 0 0 0 0 0 {tail}", f"setup 4 2 2 {2**32 + 1} 0 {tail}", f"setup 4 2 2 {NEVER} 0 {tail}")
    # a line that cannot be read is not refused, whatever else is in it
    yield from (f"setup 0 2 2 1 x {tail}", f"setup 4 2 2 5 0 0 x 0 0 {tail}", f"setup 4 2 2 0 {tail} 0", f"setup 4 2 2 1 {2**32} {tail}x",
                f"add {2**32} 0 4 - - 1 none 0 none 0 - 0 x", "add 9 0 4 - 2 1 none 0 none 0 - 0 -", "add 9 0 4 0 - 1 none 0 none 0 - 0 -",
                "release 9 9", "publish 0 0 0 0", "runfdt 0 2000 -", "run 9 x", "run 9", "drain 0 0 0 0 0", "drain 0 0 0")
    # no command at all
    yield from ("hello", "0", "-", "1 2 3", "run,0,5", "run(0, 5)", "sender run 0 5", ". reserve", "- reserve", "reserve;", "reserve reserve",
                "r", "refused 1", "error", "packet", "end", "setup#", "r\u00e9serve", "reserve\u00a0", "reserve\x0b", "run\x0c0 5", "x" * 300)


def unread_lines():
    """A sender runs, and none of these lines changes it."""
    rng = random.Random(777)
    yield from silent("# lines that cannot be read")
    yield from rust(SETUP, "reserve", "add 0 0 20 - - 1 none 0 none 0 - 0 -")
    for at, line in enumerate(every_fault(rng)):
        yield from error(line)
        if at % 16 == 15:
            yield from rust("reserve", f"release {at // 16 + 3}", "listed 2")
    yield from rust("publish 5 0 1", "runfdt 5 1 1", "run 0 5", "run 1 5", "reserve")


def spoilt_scripts():
    """Before each call of a script the same call with a fault: all other answers stay."""
    rng = random.Random(5052)
    for seed in itertools.islice((s for s in seeds() if 60 <= len(generate(s)[0]) <= 130), 0, 24, 4):
        yield from silent(f"# seed {seed}, and before each call the same with a fault")
        for case in script(seed):
            yield from error(faulty(rng, case.line)) + [case]


# Blanks, zeros in front, comments.

SILENT = ["", " ", "\t", "  \t ", "\r", "#", "# reserve", "#reserve", "  # reserve", "\t#", "##", "# setup 0", "#= refused 1", "# \u00e9"]


def spaced(rng, line):
    words = line.split()
    for at in range(1, len(words)):
        if words[at].isdigit() and not (words[0] == "add" and at == 12) and rng.randrange(4) == 0:
            words[at] = rng.choice(["0", "00", "0" * 30]) + words[at]
    between = [rng.choice([" ", " ", "  ", "\t", " \t ", "\t\t"]) for _ in words[1:]]
    front, behind = rng.choice(["", "", " ", "\t", " \t"]), rng.choice(["", "", " ", "\t", "\r", " \r"])
    return front + words[0] + "".join(b + w for b, w in zip(between, words[1:])) + behind


def spaced_scripts():
    rng = random.Random(901)
    for seed in itertools.islice((s for s in seeds() if 40 <= len(generate(s)[0]) <= 130), 4):
        yield from silent(f"# seed {seed}, with blanks, zeros in front, and lines that have no answer")
        for case in script(seed):
            yield from silent(*(rng.choice(SILENT) for _ in range(rng.choice([0, 0, 1, 2]))))
            yield case._replace(line=spaced(rng, case.line))
    yield from silent(*SILENT)


# Calls that need no sender.

def no_sender():
    rng = random.Random(11)
    yield from silent("# calls that need no sender: there is one, and it stays as it is")
    yield from rust(SETUP, "reserve")
    numbers = [0, 1, 2, 3, 10, 65535, 65536, 2**32 - 1, 2**32, 2**40, 2**63, NEVER]
    for l, e, b in [(0, 4, 2), (10, 3, 2), (10, 2, 2), (1, 1400, 64), (10, 0, 2), (10, 2, 0), (11, 1, 3), (2**40, 1400, 64), (NEVER, 1, 1),
                    (NEVER, 2, 2**63), (NEVER, NEVER, NEVER)] + [tuple(rng.choice(numbers) for _ in range(3)) for _ in range(12)]:
        yield from rust(f"partition {l} {e} {b}")
        yield from rust(*(f"blocklength {l} {e} {b} {k}" for k in rng.sample([0, 1, 2, 3, 65535, 2**32 - 1], 2)))
    for _ in range(30):
        large, e, nb_a_large, k = rng.randint(1, 99), rng.randint(1, 99), rng.randrange(5), rng.randrange(9)
        start = (min(k, nb_a_large) * large + max(0, k - nb_a_large) * (large - 1)) * e
        yield from rust(f"rawlength {large} {large - 1} {nb_a_large} {max(0, start + rng.choice((-1, 0, 1, e, 99 * e)))} {e} {k}")
        yield from rust("rawlength %d %d %d %d %d %d" % (*(rng.choice(numbers) for _ in range(5)), rng.choice((0, 1, 5, 2**32 - 1))))
    for line in ["0 1 1 1", "0 65535 65535 16", "1 1 1 1", "10 2 2 2", "10 2 2 3", "13 1 4 2", "23 3 7 2", "11 1 3 16", "40 1 3 5", "199 2 7 4",
                 "65535 65535 65535 16", "010 0002 2 02", "\t10   2\t2 2 "]:
        yield from rust("drain " + line)
    for _ in range(15):
        yield from rust("drain %d %d %d %d" % (rng.randrange(60), rng.choice((1, 2, 3, 5, 7)), rng.randint(1, 5), rng.randint(1, 16)))
    for line in ["10 0 2 2", "10 2 0 2", "10 2 2 0", "10 2 2 17", "10 65536 2 2", "10 2 65536 2", "0 0 1 1", "0 1 0 1", "0 1 1 0", "65536 1 1 1",
                 "131071 1 2 4", f"{65535 * 65535 + 1} 65535 1 16", f"{2**40} 1 65535 16", f"{2**40 + 1} 65535 65535 1", f"{NEVER} 65535 65535 1",
                 f"10 {2**16 + 2} 2 2", f"10 2 {2**32 + 2} 2", f"10 2 2 {2**16 + 2}", f"10 2 2 {NEVER}", f"{NEVER} {NEVER} {NEVER} {NEVER}"]:
        yield Case("drain " + line, "stated", ["refused"])
    yield from error(f"drain {2**64} 65535 65535 1", f"drain {2**64 + 10} 2 2 2", f"drain 10 2 2 {2**64 + 2}")
    yield from rust("reserve")


def partitions():
    yield from silent("# partitions and block lengths")
    yield from rust(*sizes.calls())


def records():
    yield from silent("# records")
    yield from (Case(line, "stated", [answer]) for line, answer in record.cases())


# The lesson.

def lesson():
    second = Script()
    for line in (LESSON / "stdin").read_text().splitlines():
        if line.startswith("#"):
            yield from silent(line)
        else:
            yield Case(line, "model" if second.answer(line).startswith("refused") else "rust")


# Asking.

def taken(line, lines):
    """The answer to a line: one line, or for a `drain` all up to its end."""
    answer = [next(lines)]
    while line.split()[0] == "drain" and answer[-1] != "end":
        answer.append(next(lines))
    return answer


def answered(oracle, cases):
    """The cases, each with its answer."""
    asked = "".join(case.line + "\n" for case in cases if case.who == "rust")
    lines = iter(subprocess.run([oracle], input=asked, capture_output=True, text=True, check=True).stdout.splitlines())
    second = Script()
    for case in cases:
        if case.who != "stated":
            answer = second.answer(case.line).split("\n")
            assert case.answer in (None, answer), (case, answer)
            assert case.who != "model" or answer[0].startswith(("refused", "error")), (case, answer)
            if case.who == "rust":
                told = taken(case.line, lines)
                assert told == answer and told[0] not in ("error", "panic"), (case, told, answer)
            case = case._replace(answer=answer)
        assert within(case.answer), case
        yield case
    assert next(lines, None) is None


def write(folder, name, lines):
    (folder / name).write_bytes("".join(line + "\n" for line in lines).encode())


def main():
    parts = [first_lines, random_scripts, refusals, claims, refused_setups, not_cut, store_ends, rare, unread_lines, spoilt_scripts,
             spaced_scripts, no_sender, partitions, records]
    cases = list(answered(sys.argv[1], [case for part in parts for case in part()]))
    write(CASES, "stdin", [case.line for case in cases])
    write(CASES, "stdout", [line for case in cases for line in case.answer])
    write(LESSON, "stdout", [line for case in answered(sys.argv[1], list(lesson())) for line in case.answer])


if __name__ == "__main__":
    main()
