#!/usr/bin/env python3
"""Sends logs in pieces through a pipe to the program follow, and reads every answer before the next piece is sent.

Usage: tests/follow.py [PROGRAM [FILE]], by default crates/follow/out/follow, which `rt run` makes in crates/follow if it is not there, and the
stored logs of crates/vectors. The program runs on x86-64 Linux. Each stored log is sent byte by byte and at random cuts, and once more without its
end; then nothing at all and every bad setup byte; then logs far longer than a fragment may be. The answers of the stored logs are stored with them,
and those of the long logs are worked out here from the documents 01 and 02. Ends with status 1 at the first wrong byte, and where an answer is not
there in time.
"""
import os
import random
import select
import subprocess
import sys
import threading

ROOT = os.path.dirname(os.path.dirname(os.path.abspath(__file__)))
RECORD, ANSWER = 12, 8
# How long an answer may take, so that a program that keeps its answers back is found out.
SECONDS = 10
OK, EPERM, EBUSY, EINVAL, EALREADY = 0, -1, -16, -22, -114
# The cuts are random and the same in every run.
DRAW = random.Random(7)


def answer(code, value=0):
    return code.to_bytes(4, "big", signed=True) + value.to_bytes(4, "big")


REFUSAL = answer(EINVAL)


def bad(setup):
    """01 and 02: n in four bits, pin-only, wide, two zero bits; n is 1 to 4, and on a wide machine 1 to 15, or 0 for 16."""
    return setup & 3 != 0 or setup & 4 == 0 and not 1 <= setup >> 4 <= 4


def start(program):
    return subprocess.Popen([program], stdin=subprocess.PIPE, stdout=subprocess.PIPE, bufsize=0)


def fail(run, text):
    run.kill()
    sys.exit(text)


def read(run, size, name):
    """So many bytes of output, or fewer where it ends."""
    found = b""
    while len(found) < size:
        if not select.select([run.stdout], [], [], SECONDS)[0]:
            fail(run, f"{name}: after {len(found)} bytes of {size} nothing comes for {SECONDS} seconds")
        piece = os.read(run.stdout.fileno(), size - len(found))
        if not piece:
            break
        found += piece
    return found


def expect(run, expected, name):
    found = read(run, len(expected), name)
    if found != expected:
        fail(run, f"{name}: {found.hex()} and not {expected.hex()}")


def ends(run, expected, name):
    """The output ends with these bytes, and the program in good order."""
    found = read(run, len(expected) + 1, name)
    if found != expected:
        fail(run, f"{name}: at the end {found.hex()} and not {expected.hex()}")
    if run.wait(SECONDS) != 0:
        fail(run, f"{name}: status {run.returncode}")


def in_pieces(program, setup, pieces, answers, last, name):
    """Sends a log, reads the answers of each piece before the next one is sent, and ends the input. Says how many answers came."""
    with start(program) as run:
        run.stdin.write(setup)
        sent = 0
        for piece in pieces:
            if select.select([run.stdout], [], [], 0)[0]:
                fail(run, f"{name}: an answer or an end before byte {sent} is sent")
            run.stdin.write(piece)
            done, sent = sent // RECORD, sent + len(piece)
            expect(run, answers[done * ANSWER : sent // RECORD * ANSWER], f"{name}, byte {sent}")
        run.stdin.close()
        ends(run, last, name)
    return sent // RECORD + len(last) // ANSWER


def bytes_of(log):
    return [log[at : at + 1] for at in range(len(log))]


def cuts_of(log, most):
    """Pieces of random sizes, half of them of a record's length at most."""
    pieces, at = [], 0
    while at < len(log):
        size = DRAW.randint(1, DRAW.choice([RECORD, most]))
        pieces.append(log[at : at + size])
        at += size
    return pieces


def refused(program, given, name):
    """One answer, EINVAL, and the program ends by itself; without a byte it has to see that the input ends."""
    with start(program) as run:
        run.stdin.write(given)
        if not given:
            run.stdin.close()
        ends(run, REFUSAL, name)


def at_once(program, given, count):
    """The answers of an input that is sent in one piece."""
    run = subprocess.run([program], input=given, stdout=subprocess.PIPE, timeout=SECONDS, check=True)
    if len(run.stdout) != count * ANSWER:
        sys.exit(f"{len(run.stdout)} bytes for {count} records in one piece")
    return run.stdout


def stored(program, name, given, answers):
    """A stored case. Says how many answers came."""
    if not given or bad(given[0]):
        if answers != REFUSAL:
            sys.exit(f"{name}: the stored answers are no refusal")
        refused(program, given, name)
        return 1
    setup, log = given[:1], given[1:]
    count, last = len(log) // RECORD, b""
    if len(log) % RECORD != 0:
        # The whole records are run here, and the stored answer is that of the program replay, which refuses the log.
        last, answers = answers, at_once(program, given[: 1 + count * RECORD], count)
    if len(answers) != count * ANSWER or last not in (b"", REFUSAL):
        sys.exit(f"{name}: not the stored answers of {count} records")
    came = in_pieces(program, setup, bytes_of(log), answers, last, f"{name} byte by byte")
    came += in_pieces(program, setup, cuts_of(log, 300), answers, last, f"{name} in pieces")
    if log:
        short = log[: DRAW.choice([at for at in range(1, len(log) + 1) if at % RECORD != 0])]
        came += in_pieces(program, setup, cuts_of(short, 100), answers, REFUSAL, f"{name} without its end")
    return came


def long_log(program, name, setup, steps):
    """A log of pairs of a record and its answer. It is sent by a thread of its own, as fast as it is taken."""
    log, answers = b"".join(record for record, _ in steps), b"".join(answer for _, answer in steps)
    with start(program) as run:
        def send():
            try:
                for piece in [setup] + cuts_of(log, 60000):
                    run.stdin.write(piece)
                run.stdin.close()
            except (OSError, ValueError):
                pass  # The program has ended, or the test has.

        threading.Thread(target=send, daemon=True).start()
        for at in range(0, len(answers), ANSWER):
            expect(run, answers[at : at + ANSWER], f"{name}, record {at // ANSWER}")
        ends(run, b"", name)
    print(f"{name}: {len(log)} bytes, {len(steps)} answers as expected")


def record(operation, cpu=0, thread=0, lock=0, a=0):
    return bytes([operation << 4 | cpu, thread, lock, 0]) + a.to_bytes(4, "big") + bytes(4)


def long_logs(program):
    up, down, owner = record(0, cpu=1), record(1, cpu=1), record(11)
    long_log(program, "a free lock's owner", b"\x20", [(owner, answer(OK))] * 100000)
    twice = [(up, answer(OK)), (up, answer(EALREADY)), (down, answer(OK)), (down, answer(EALREADY))]
    long_log(program, "up and down", b"\x20", twice * 25000)
    nested, release = record(4, lock=7, a=1), record(6, lock=7)
    deep = [(nested, answer(OK, depth)) for depth in range(1, 256)] + [(nested, answer(EBUSY, 255))]
    free = [(release, answer(OK, depth)) for depth in range(254, -1, -1)] + [(release, answer(EPERM))]
    begin = [(record(0), answer(OK)), (record(2, thread=3), answer(OK))]
    long_log(program, "a lock as deep as it goes and free again", b"\x20", begin + (deep + free) * 100)


def main():
    crate = os.path.join(ROOT, "crates", "follow")
    program = os.path.abspath(sys.argv[1]) if len(sys.argv) > 1 else os.path.join(crate, "out", "follow")
    if len(sys.argv) < 2 and not os.path.exists(program):
        made = subprocess.run(["rt", "run"], cwd=crate, stdin=subprocess.DEVNULL, capture_output=True)
        if made.returncode != 0:
            sys.exit(made.stderr.decode())
    path = sys.argv[2] if len(sys.argv) > 2 else os.path.join(ROOT, "crates", "vectors", "data", "logs-after-06.txt")
    logs = total = 0
    with open(path) as lines:
        for line in lines:
            name, given, answers = line.split()
            given, answers = (bytes.fromhex(text.replace("-", "")) for text in (given, answers))
            total += stored(program, name, given, answers)
            logs += 1
    if logs == 0:
        sys.exit("no logs")
    print(f"{logs} stored logs byte by byte, at random cuts and without their end: {total} answers as expected")
    refused(program, b"", "nothing at all")
    for setup in range(256):
        if bad(setup):
            refused(program, bytes([setup]), f"setup byte {setup:02x}")
        else:
            in_pieces(program, bytes([setup]), [], b"", b"", f"setup byte {setup:02x}")
    print(f"nothing at all and {sum(map(bad, range(256)))} bad setup bytes: one refusal each; a good setup byte alone: no answer")
    long_logs(program)


if __name__ == "__main__":
    main()
