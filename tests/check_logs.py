#!/usr/bin/env python3
"""Writes logs and claimed answers into files, runs the program check_logs on them, and compares every line that it writes.

Usage: tests/check_logs.py [PROGRAM], by default crates/check_logs/out/check_logs, which `rt run` makes in crates/check_logs if it is not there. The
program runs on x86-64 Linux. First come the stored logs of crates/vectors with their answers, right and with bits flipped, and the stored claims
with their verdicts. Then a thousand pairs in one command, also with few descriptors; files that are missing, empty, folders, too long, cut off or
not allowed; pipes, by which a line is seen to be written before the next pair is read; and the memory that a short log takes and the longest. What
a line has to say is worked out here from the documents 01 and 02 and the stored answers. Ends with status 1 at the first wrong line.
"""
import os
import pwd
import random
import select
import shutil
import subprocess
import sys
import tempfile

ROOT = os.path.dirname(os.path.dirname(os.path.abspath(__file__)))
STORED = os.path.join(ROOT, "crates", "vectors", "data")
RECORD, ANSWER = 12, 8
MOST_RECORDS = 2048
LOG_MAX, ANSWERS_MAX = MOST_RECORDS * RECORD, MOST_RECORDS * ANSWER
# The longest name that a path can have.
NAME_MAX = 4095
# How long a line may take, so that a program that keeps its lines back is found out.
SECONDS = 10
# How many pairs go into one command.
MANY = 1000
FEW_DESCRIPTORS = 64
# How many claims with flipped bits each stored log gets, and how many bits are flipped.
FLIPS = [1] * 20 + [3] * 5
PAGE = os.sysconf("SC_PAGE_SIZE")
CODES = {0: "OK", -1: "EPERM", -12: "ENOMEM", -16: "EBUSY", -22: "EINVAL", -45: "EDEADLK", -114: "EALREADY", -139: "EOVERFLOW"}
# What each operation is called and uses: the CPU, the thread, the lock; in A a flag, a priority, or with B two masks.
OPERATIONS = {
    0: ("up", "c"), 1: ("down", "c"), 2: ("put", "ct"), 3: ("take", "ct"), 4: ("acquire", "clf"), 6: ("release", "cl"), 7: ("mask", "tm"),
    8: ("pin", "ct"), 9: ("priority", "tp"), 10: ("ipi", "ct"), 11: ("owner", "l"), 12: ("unwind", "ct"),
}
# The flipped bits are random and the same in every run.
DRAW = random.Random(8)


def answer(code, value=0):
    return code.to_bytes(4, "big", signed=True) + value.to_bytes(4, "big")


def record(operation, cpu=0, thread=0, lock=0, a=0):
    return bytes([operation << 4 | cpu, thread, lock, 0]) + a.to_bytes(4, "big") + bytes(4)


def bad(setup):
    """01 and 02: n in four bits, pin-only, wide, two zero bits; n is 1 to 4, and on a wide machine 1 to 15, or 0 for 16."""
    return setup & 3 != 0 or setup & 4 == 0 and not 1 <= setup >> 4 <= 4


def count(number, noun):
    return f"{number} {noun}" if number == 1 else f"{number} {noun}s"


def operation(setup, record):
    """The name of what a record asks for, by the form test of 01."""
    name, uses = OPERATIONS.get(record[0] >> 4, ("malformed", ""))
    a, b = record[4:8], record[8:12]
    fits = [
        record[0] & 15 < ((setup >> 4 or 16) if "c" in uses else 1),
        record[1] < (32 if "t" in uses else 1),
        record[2] < (128 if "l" in uses else 1),
        record[3] == 0,
        not any(a) or "m" in uses or "f" in uses and a == b"\0\0\0\1" or "p" in uses and -128 <= int.from_bytes(a, "big", signed=True) <= 127,
        not any(b) or "m" in uses,
    ]
    if not all(fits):
        return "malformed"
    return "nested " + name if "f" in uses and any(a) else name


def spoken(answer):
    code = int.from_bytes(answer[:4], "big", signed=True)
    return f"{CODES.get(code, f'code {code}')} {int.from_bytes(answer[4:], 'big')}"


def refusal(given, claim):
    """Why a pair is refused, the code first; or nothing."""
    if not given:
        return "EINVAL: no setup byte"
    if bad(given[0]):
        return "EINVAL: a bad setup byte"
    size = len(given) - 1
    if size > LOG_MAX:
        return f"EOVERFLOW: the log has more than {LOG_MAX} bytes"
    if size % RECORD != 0:
        return "EINVAL: the log ends inside a record"
    if len(claim) * RECORD == size * ANSWER:
        return ""
    claimed = f"{count(len(claim), 'byte')} of answers" if claim else "no answers"
    if len(claim) > ANSWERS_MAX:
        claimed = f"more than {ANSWERS_MAX} bytes of answers"
    return f"EINVAL: {claimed} to {count(size // RECORD, 'record')}"


def verdict(given, claim, right):
    """What the line says behind the names, for a log whose right answers are known."""
    why = refusal(given, claim)
    if why:
        return "refused, " + why
    for at in range(0, len(claim), ANSWER):
        if claim[at : at + ANSWER] != right[at : at + ANSWER]:
            number = at // ANSWER
            name = operation(given[0], given[1 + number * RECORD : 1 + (number + 1) * RECORD])
            return f"record {number} differs: {name}, claimed {spoken(claim[at : at + ANSWER])}, right {spoken(right[at : at + ANSWER])}"
    return f"accepted, {count(len(claim) // ANSWER, 'record')}"


class Case:
    """Arguments, and the line that they have to get."""

    def __init__(self, arguments, words, head=None):
        self.arguments = arguments
        self.words = words
        self.line = f"{head or ' '.join(arguments)}: {words}"


def write(name, content):
    with open(name, "wb") as out:
        out.write(content)
    return name


def files(stem, given, claim, right):
    """A case of two new files."""
    return Case([write(stem + ".log", given), write(stem + ".answers", claim)], verdict(given, claim, right))


def output(cases):
    """The lines of some cases, and the last one with the counts."""
    found = [case.words.split()[0].rstrip(",") for case in cases]
    counts = f"{found.count('accepted')} accepted, {found.count('record')} differs, {found.count('refused')} refused"
    return [case.line for case in cases] + [f"{count(len(cases), 'pair')}: {counts}"]


def compare(written, expected):
    lines = written.decode().split("\n")
    for found, line in zip(lines, expected + [""]):
        if found != line:
            sys.exit(f"{found}\nand not\n{line}")
    if len(lines) != len(expected) + 1:
        sys.exit(f"{len(lines) - 1} lines and not {len(expected)}")


def run(command, expected, **how):
    done = subprocess.run(command, stdout=subprocess.PIPE, stderr=subprocess.PIPE, timeout=60 * SECONDS, **how)
    compare(done.stdout, expected)
    if done.returncode != 0 or done.stderr:
        sys.exit(f"status {done.returncode}, {done.stderr.decode()}")


def check(program, cases):
    """All cases in one command."""
    run([program] + [argument for case in cases for argument in case.arguments], output(cases))


def stored_lines(name, columns):
    with open(os.path.join(STORED, name)) as lines:
        return [line.split(None, columns - 1) for line in lines]


def unhex(text):
    return bytes.fromhex(text.replace("-", ""))


def flipped(claim, bits):
    wrong = bytearray(claim)
    for place in DRAW.sample(range(8 * len(claim)), bits):
        wrong[place // 8] ^= 1 << place % 8
    return bytes(wrong)


def stored_logs(program):
    """Every stored log with its answers: accepted, or refused where the one stored answer is a refusal. Then with wrong answers."""
    right_ones, wrong_ones = [], []
    for number, (_, given, answers) in enumerate(stored_lines("logs-after-06.txt", 3)):
        given, answers = unhex(given), unhex(answers)
        right_ones.append(files(f"log{number}", given, answers, answers))
        if answers and not refusal(given, answers):
            for nth, bits in enumerate(FLIPS):
                wrong_ones.append(files(f"log{number}flip{nth}", given, flipped(answers, bits), answers))
    check(program, right_ones)
    for at in range(0, len(wrong_ones), MANY):
        check(program, wrong_ones[at : at + MANY])
    print(f"{len(right_ones)} stored logs: {output(right_ones)[-1]}")
    print(f"{len(wrong_ones)} claims to them with flipped bits: the lowest wrong record named for each")
    return right_ones + wrong_ones


def begins(found):
    """How the line of a stored verdict begins, behind the names."""
    if found[0] == "accepted":
        return "accepted, "
    if found[0] == "differs":
        return f"record {found[1]} differs: "
    return f"refused, {CODES[int(found[1])]}: "


def stored_claims(program):
    """Every stored claim. The right answers are those of the accepted claim to the same log."""
    stored = [(unhex(setup) + unhex(log), unhex(claim), found.split()) for _, setup, log, claim, found in stored_lines("checks-08.txt", 5)]
    right = {given: claim for given, claim, found in stored if found[0] == "accepted"}
    cases = []
    for number, (given, claim, found) in enumerate(stored):
        if found[0] == "differs" and given not in right:
            sys.exit(f"claim {number}: the right answers are not stored")
        case = files(f"claim{number}", given, claim, right.get(given, b""))
        if not case.words.startswith(begins(found)):
            sys.exit(f"claim {number}: {case.words}, and the stored verdict is {' '.join(found)}")
        cases.append(case)
    check(program, cases)
    print(f"{len(cases)} stored claims: the stored verdict for each")
    return cases


def missing_and_folders(right):
    """Files of which there is nothing to judge, each as a log and as answers. They are opened in vain, or cannot be read."""
    log, answers = right.arguments
    reasons = [("missing", "opened: no such file"), ("", "opened: no such file"), (log + "/below", "opened: error 20"), (".", "read: error 21")]
    cases = [Case([name, answers], f"refused, the log cannot be {why}") for name, why in reasons]
    return cases + [Case([log, name], f"refused, the answers cannot be {why}") for name, why in reasons]


def many_at_once(program, cases, broken):
    """A thousand pairs in one command, also with so few descriptors that it is found out if they stay open, where a read fails too."""
    chosen = [case for case in broken if "" not in case.arguments] * (FEW_DESCRIPTORS // 2)
    chosen += DRAW.sample(cases, MANY - len(chosen))
    DRAW.shuffle(chosen)
    names = "".join(argument + "\n" for case in chosen for argument in case.arguments).encode()
    xargs = ["xargs", "-x", "-n", str(2 * MANY), program]
    run(xargs, output(chosen), input=names)
    run(["sh", "-c", f'ulimit -n {FEW_DESCRIPTORS} && exec "$@"', "sh"] + xargs, output(chosen), input=names)
    print(f"in one command, also with {FEW_DESCRIPTORS} descriptors: {output(chosen)[-1]}")


def longest_log():
    """A log of 2,048 records with its answers: a lock as deep as it goes and free again, over and over."""
    nested, release = record(4, lock=7, a=1), record(6, lock=7)
    deep = [(nested, answer(0, depth)) for depth in range(1, 256)] + [(nested, answer(-16, 255))]
    free = [(release, answer(0, depth)) for depth in range(254, -1, -1)] + [(release, answer(-1))]
    steps = ([(record(0), answer(0)), (record(2, thread=3), answer(0))] + (deep + free) * 4)[:MOST_RECORDS]
    return b"\x20" + b"".join(step for step, _ in steps), b"".join(found for _, found in steps)


def sizes(program):
    """Sizes at their limits: none, the longest, one byte more, one byte less, one record more."""
    most, right = longest_log()
    up, one = b"\x20" + record(0), answer(0)
    two, both = up + record(1), answer(0) * 2
    pairs = [
        (most, right), (most, right[:-ANSWER] + answer(-99, 4)), (most, right[:-1]), (most, right + b"\0"), (most, right + one), (most, b""),
        (most[:-1], right), (most + b"\0", right), (most + record(0), right), (most + record(0), right + one), (most + bytes(10**6), right),
        (b"\x21" + most[1:] + b"\0", right),
        (b"", b""), (b"", one), (b"\0", b""), (b"\x20", b""), (b"\x20", one), (up, one), (up, b""), (up, b"\0"), (up, bytes(13)), (up + b"\0", one),
        (up, answer(-(2**31), 2**32 - 1)), (up, answer(2**31 - 1)), (two, both), (two, bytes(13)), (two, b""), (two, bytes(10**6)),
    ]
    cases = []
    for number, (given, claim) in enumerate(pairs):
        cases.append(files(f"size{number}", given, claim, right if given == most else both))
    check(program, cases)
    for case in cases:
        check(program, [case])
    print(f"{len(cases)} pairs of sizes at their limits, together and one by one: as expected")
    return cases


def names(program, right):
    """Names at their limit, a log without answers, and no argument at all."""
    log, answers = right.arguments
    longest, too_long = ("./" * NAME_MAX + log)[-NAME_MAX:], "n" * (NAME_MAX + 1)
    refused = "refused, the name is too long"
    cases = [
        Case([longest, answers], right.words),
        Case([too_long, answers], refused, "argument 3"),
        Case([log, too_long], refused, "argument 6"),
        Case([too_long, too_long], refused, "argument 7"),
        right,
    ]
    check(program, cases + [Case([log], "refused, no answers are named")])
    check(program, cases + [Case([too_long], refused, "argument 11")])
    check(program, [Case([log], "refused, no answers are named")])
    run([program], ["usage: check_logs LOG ANSWERS ..."])
    print("names at their limit, an odd number of arguments and none: as expected")


def not_allowed(program, right):
    """Files that may not be read. Root may read all, so the program is then run as nobody."""
    log, answers = right.arguments
    for name in (log, answers):
        os.chmod(name, 0o644)
        shutil.copyfile(name, "closed." + name)
        os.chmod("closed." + name, 0)
    cases = [
        right,
        Case(["closed." + log, answers], "refused, the log cannot be opened: not allowed"),
        Case([log, "closed." + answers], "refused, the answers cannot be opened: not allowed"),
        right,
    ]
    arguments = [argument for case in cases for argument in case.arguments]
    if os.geteuid() == 0:
        os.chmod(".", 0o755)
        shutil.copy(program, "program")
        os.chmod("program", 0o755)
        nobody = pwd.getpwnam("nobody")
        run([os.path.abspath("program")] + arguments, output(cases), user=nobody.pw_uid, group=nobody.pw_gid, extra_groups=[])
    else:
        run([program] + arguments, output(cases))
    print("files that may not be read: refused, and the pairs beside them judged")


def line_of(child):
    """The next line, or an end where it does not come in time."""
    line = b""
    while not line.endswith(b"\n"):
        if not select.select([child.stdout], [], [], SECONDS)[0]:
            child.kill()
            sys.exit(f"after {line} nothing comes for {SECONDS} seconds")
        piece = os.read(child.stdout.fileno(), 1)
        if not piece:
            child.kill()
            sys.exit(f"the output ends after {line}")
        line += piece
    return line[:-1].decode()


def expect_line(child, line):
    found = line_of(child)
    if found != line:
        child.kill()
        sys.exit(f"{found}\nand not\n{line}")


def waiting(program, first, second):
    """Runs the program on two cases, the files of the second through pipes, a few bytes at a time. The first line has to be there before anything is
    sent. Says how many bytes of memory the program then has that are no part of a file."""
    pipes = [name + ".pipe" for name in second.arguments]
    for name in pipes:
        os.mkfifo(name)
    expected = output([first, Case(pipes, second.words)])
    with subprocess.Popen([program] + first.arguments + pipes, stdout=subprocess.PIPE, bufsize=0) as child:
        expect_line(child, expected[0])
        with open(f"/proc/{child.pid}/smaps_rollup") as rows:
            taken = sum(int(row.split()[1]) * 1024 for row in rows if row.startswith(("Anonymous:", "Swap:")))
        for name, pipe in zip(second.arguments, pipes):
            with open(name, "rb") as file, open(pipe, "wb", buffering=0) as out:
                while piece := file.read(7):
                    out.write(piece)
        for line in expected[1:]:
            expect_line(child, line)
    for name in pipes:
        os.remove(name)
    return taken


def memory(program, right):
    """The memory for a log of one record and for the longest, with a right claim and with one whose last answer is wrong. Of the pages of files, as
    the C library's, the system maps more or fewer as it likes, so they are left out."""
    given, answers = longest_log()
    taken = []
    for given, answers in [(b"\x20" + record(0), answer(0)), (given, answers)]:
        for claim in (answers, answers[:-1] + b"\7"):
            case = files(f"memory{len(taken)}", given, claim, answers)
            taken.append(waiting(program, case, right))
            print(f"memory of a log of {len(claim) // ANSWER}: {taken[-1] // 1024} KB, {case.words}")
    if max(taken) - min(taken) > 2 * PAGE:
        sys.exit(f"the memory depends on the log: {taken} bytes")


def main():
    crate = os.path.join(ROOT, "crates", "check_logs")
    program = os.path.abspath(sys.argv[1]) if len(sys.argv) > 1 else os.path.join(crate, "out", "check_logs")
    if len(sys.argv) < 2 and not os.path.exists(program):
        made = subprocess.run(["rt", "run"], cwd=crate, stdin=subprocess.DEVNULL, capture_output=True)
        if made.returncode != 0:
            sys.exit(made.stderr.decode())
    with tempfile.TemporaryDirectory() as folder:
        os.chdir(folder)
        cases = stored_logs(program) + stored_claims(program) + sizes(program)
        right = files("right", b"\x20" + record(0) + record(1), bytes(2 * ANSWER), bytes(2 * ANSWER))
        broken = missing_and_folders(right)
        check(program, broken + [right])
        print(f"{len(broken)} pairs with a file that cannot be opened or read: refused, and not taken for empty")
        many_at_once(program, cases, broken)
        names(program, right)
        not_allowed(program, right)
        memory(program, right)
        print(f"{len(cases) + len(broken)} pairs and {MANY} at once: every line as expected")
        os.chdir(ROOT)


if __name__ == "__main__":
    main()
