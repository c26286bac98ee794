#!/usr/bin/env python3
"""Holds the lines of crates/single_calls to the documents 01 and 02, read a second time and independently of the code and its definitions.

Usage: tests/single_calls.py [FILE], by default the stored output, to which `rt ci` holds what the program writes; `rt run >FILE` in
crates/single_calls writes it anew. Each line names a call, its arguments and its answer; the answer is worked out again here from 01's sections
"Codes" and "Single calls" and from 02's width of an owner word's tag and its EDEADLK alone. Ends with status 1 at the first line that differs.
"""
import os
import sys

CONSTANTS = {
    "OK": 0, "EPERM": -1, "ENOENT": -2, "EBADF": -9, "EAGAIN": -11, "ENOMEM": -12, "EBUSY": -16, "EINVAL": -22, "ENOSPC": -28, "EPIPE": -32,
    "ENOMSG": -35, "EDEADLK": -45, "EADDRINUSE": -112, "EALREADY": -114, "ETIMEDOUT": -116, "EOVERFLOW": -139, "ECANCELED": -140,
}
# The sixteen CPU records that the program uses: active, priority.
CPUS = [
    (1, 9), (1, 9), (1, 5), (0, 9), (1, -2**31), (1, 2**31 - 1), (1, -1), (1, 0),
    (0, 2**31 - 1), (1, 128), (1, 127), (1, -128), (1, -129), (1, 1), (1, 6), (1, 2**31 - 1),
]


def yes_no(answer):
    return "yes" if answer else "no"


def ones(mask):
    return bin(mask).count("1")


def taggable(cpu, thread, tags):
    return cpu < tags and thread != 0 and thread % tags == 0


def owner_word(name, a):
    # How many CPUs the tag tells apart.
    tags = {0: 4, 1: 16}[a["wide"]]
    if name == "spin_lock_compute_owner":
        return f"OK word {a['thread'] + a['cpu']}" if taggable(a["cpu"], a["thread"], tags) else "EINVAL word 0"
    word = a["word"]
    if name == "spin_lock_decode_owner":
        if word == 0:
            return "OK free"
        return "EINVAL none" if word < tags else f"OK held thread {word - word % tags} cpu {word % tags}"
    if name == "spin_lock_valid":
        return "EINVAL no" if a["cpu"] >= tags else "OK " + yes_no(not (word != 0 and word % tags == a["cpu"]))
    return "OK " + yes_no(word == a["thread"] + a["cpu"]) if taggable(a["cpu"], a["thread"], tags) else "EINVAL no"


def shown(owner, depth, irq):
    return f"owner {'none' if owner is None else owner} depth {depth} irq {irq}"


def lock_record(name, a):
    owner, depth, irq, thread = a["owner"], a["depth"], a["irq"], a.get("thread")
    valid = (owner is not None) == (depth > 0) and depth <= 255 and not (owner is None and irq)
    same = shown(owner, depth, irq)
    mine = owner is not None and owner == thread
    if name == "valid":
        return yes_no(valid)
    if name.endswith("_elsewhere"):
        # The right thread with the wrong CPU is no owner: EBUSY to take the lock, EPERM to give it back.
        if valid and mine:
            return ("EPERM " if name == "release_elsewhere" else "EBUSY ") + same
        name = name.removesuffix("_elsewhere")
    if name == "acquire_again":
        # A plain acquire on the CPU that holds the lock.
        return "EDEADLK " + same if valid and owner is not None else lock_record("acquire", {**a, "nested": 0})
    if name in ("acquire", "release"):
        if not valid:
            return "EINVAL " + same
        if name == "acquire" and owner is None:
            return "OK " + shown(thread, 1, 1)
        if name == "acquire" and a["nested"] and mine and depth < 255:
            return "OK " + shown(owner, depth + 1, irq)
        if name == "release" and mine:
            return "OK " + (shown(None, 0, 0) if depth == 1 else shown(owner, depth - 1, irq))
        return ("EPERM " if name == "release" else "EBUSY ") + same
    if name == "nest_depth":
        return f"OK depth {depth}" if valid else "EINVAL depth 0"
    if name == "owner_get":
        return f"OK owner {'none' if owner is None else owner}" if valid else "EINVAL owner none"
    free = owner is None
    answer = {"acquire_check": free, "is_free": free, "is_held": not free, "release_check": mine, "is_owner": mine}[name]
    return "OK " + yes_no(answer) if valid else "EINVAL no"


def mask(name, a):
    if name == "validate_pin_mask":
        return yes_no(ones(a["mask"]) == 1)
    if name == "cpu_pin_compute":
        return f"OK mask {2 ** a['cpu']}" if a["max"] <= 32 and a["cpu"] < a["max"] else "EINVAL mask 0"
    new = (a["current"] | a["enable"]) & ~a["disable"] & 0xFFFFFFFF
    refused = a["running"] or (a["pin_only"] and ones(new) != 1)
    return f"EINVAL mask {a['current']}" if refused else f"OK mask {new}"


def interrupt(name, a):
    current, most = a["current"], a["max"]
    if name == "validate_ipi_mask":
        if not current < most <= 16:
            return "EINVAL no"
        return "OK " + yes_no(not a["mask"] >> current & 1 and a["mask"] < 2**most)
    if most > 16 or a["num"] > most or current >= a["num"]:
        return "EINVAL mask 0"
    found = 0
    for i in range(a["num"]):
        active, priority = CPUS[i]
        if i != current and active and a["mask"] >> i & 1 and priority > a["target"]:
            found |= 1 << i
    return f"OK mask {found}"


def expected(left):
    words = left.split()
    name = words[0]
    a = {words[i]: None if words[i + 1] == "none" else int(words[i + 1]) for i in range(1, len(words), 2)}
    if name.startswith("spin_"):
        return owner_word(name, a)
    if name in ("cpu_mask_mod", "cpu_pin_compute", "validate_pin_mask"):
        return mask(name, a)
    if name in ("compute_ipi_mask", "validate_ipi_mask"):
        return interrupt(name, a)
    return lock_record(name, a)


def holds(line):
    if " is " in line:
        name, number = line.split(" is ")
        return CONSTANTS[name] == int(number)
    left, right = line.split(": ", 1)
    if left == "number":
        name, number = right.split()
        return CONSTANTS[name] == int(number)
    if left == "new":
        return right == shown(None, 0, 0)
    return right == expected(left)


def main():
    here = os.path.dirname(os.path.abspath(__file__))
    path = sys.argv[1] if len(sys.argv) > 1 else os.path.join(here, "..", "crates", "single_calls", "stdout")
    with open(path) as lines:
        count = 0
        for line in lines:
            if not holds(line.rstrip("\n")):
                sys.exit(f"not what 01 and 02 say: {line}")
            count += 1
    if count == 0:
        sys.exit("no lines")
    print(f"{count} lines are what 01 and 02 say")


if __name__ == "__main__":
    main()
