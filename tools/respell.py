#!/usr/bin/env python3
"""Spells the definitions and lemmas of this repository as the library spells its own: values and lemmas in snake case, facts in camel case.

usage: tools/respell.py         at the top of the repository, once, after the kit's port.py
       tools/respell.py --list  prints the table and changes nothing

A name turns that a file of specs/ or proofs/ declares, that begins with a small letter and that holds a dash or a capital. It turns as a whole word: in antt and in
clauses everywhere but in strings and in labels that Rattle makes; in comments and in pages inside code spans alone; in must-fail edits in their texts. Functions of
src/, exported names, strings, inputs and outputs have no such name. Two names that would fall together in one file stop the script.
"""

import collections
import os
import re
import sys

WORD = re.compile(r'[^\s(){}.;,@"«»]+')
DECLARED = re.compile(
    r"(?m)^ *(?:(?:pub|abbrev|unfoldable) )*([^\s(){}.;,@\"«»]+)(?: \{[^{}\n]*\}| \([^()\n]*\))* :(?= |$)(.*)"
)
QUIET = re.compile(r'"(?:[^"\\\n]|\\.)*"|(?<![^\s(){}.;,@"«»])--[^\n]*|\{-.*?-\}', re.S)
QUIET_RUST = re.compile(r'b?"(?:[^"\\\n]|\\.)*"|//[^\n]*')
SPAN = re.compile(r"`[^`\n]+`")
MADE = re.compile(r"(?:tie|goal|g|need)\.")

# Names that would fall together with a definition's when they are in snake case, and the one fact among them.
CHOSEN = {
    "ruledBy": "RuledBy",
    "ruled-by": "mask_is_ruled",
    "row-by": "row_is_by",
    "input-code": "input_code_is",
    "by-owner": "of_owner",
    "by-current": "of_current",
    "word-cpu": "word_has_cpu",
    "is-thread": "t_is_thread",
    "no-thread": "without_thread",
    "is-current": "current_names",
    "thread-mask": "thread_by_mask",
    "is-place": "place_names",
    "lock-valid": "lock_is_valid",
    "situation-at": "situation_in_table",
    "ipi-says": "ipi_rule_says",
    "is-from": "from_names",
    "mask-says": "mask_fact",
    "no-row": "no_row_past",
    "pin-says": "pin_fact",
    "of-locks": "of_locks_done",
    "bit-not": "bit_of_not",
    "bit-and": "bit_of_and",
    "bit-or": "bit_of_or",
    "bool-byte": "byte_of_bool",
}

# Names that port.py had turned already in crates/, and that pages and edits still have as they were.
TURNED = """
acquire-spec add-at add-reads again-by all-both all-fit all-from all-go all-more all-same all-three allBelow and-left and-pow and-right and-set
answer-back answerIn answerOf answers-at answers-pieces as-it-was as-one asks-back at-head at-width back-more below-or below-top below-two bit-is
bitNot bitsOf block-run body-is by-code by-form by-number by-row byteAt bytesAt bytesOf call-kept callAt callBy callOf caseOf cast-ok cellOf cellsOf
code-is code-of codeIn codeOf copyAt depth-is each-at each-more each-step either-order either-way enum-told every-in few-bytes fields-back fieldsOf
fill-spec find-spec finish-spec first-fits flag-is formOf four-bytes four-runs freshOf from-fields from-halves from-start front-length get-other go-on
goes-on good-start held-by held-word holds-on in-meet in-order in-parts in-place in-rest in-right in-row in-two is-code is-right isHeld kept-next
kindOf known-of lastBy lastOf leaves-by lent-fits lent-length let-go lowest-set machineOf made-by mask-done minus-one mul-at mul-ok neither-left
neither-right new-spec no-cell no-flag no-place no-record no-room no-word noRow none-of none-passes none-yet not-free not-pinned not-taken
nothing-stored number-fits numberOf of-one of-two ofFields one-fewer one-less one-more one-only ones-none only-one or-left or-right other-word
owns-nothing pairAt part-length past-row place-is put-back put-on put-spec release-other release-spec rest-put resultAt resultOf roomAt row-is rowAt
rowBy rowOf run-end run-room run-spec runAt runOf same-answer same-code same-end same-from same-length same-more same-or same-row same-self same-size
same-test says-back says-of set-all set-back set-next shl-below shl-one signed-same skip-below slotBy start-fits start-spec step-keeps step-spec
store-below store-other store-same sub-read sum-more sum-same tagAt take-done take-in take-spec taken-here test-bit toSigned too-long turn-one
two-ways up-done up-kept walk-begins walk-ends went-up whole-of whole-run wideOf widthBits widthBy widthOf with-rest withRun word-fits word-held
word-holds word-made word-some wordBytes wordOf written-over
""".split()


def in_snake_case(name):
    words = re.sub(r"(?<=[a-z0-9])[A-Z]+", lambda m: "_" + m[0].lower(), name)
    return words.replace("-", "_").lower()


def files_of(top, ends):
    for folder, dirs, names in os.walk(top):
        dirs[:] = sorted(d for d in dirs if d not in ("out", ".git", "target"))
        for name in sorted(names):
            if name.endswith(ends):
                yield os.path.join(folder, name)


def text_of(path):
    with open(path, encoding="utf-8") as f:
        return f.read()


def kit_names(text, crates):
    """The names that a file takes from the library: they keep their spelling there."""
    found = set()
    for path, items in re.findall(r"(?m)^ *(?:ghost )?use ([^\s{;]+)\{([^}]*)\}", text):
        steps = path.strip(".").split(".")
        if not (steps[0] == "Rattle" and len(steps) > 1 and steps[1] in crates):
            found.update(WORD.findall(items))
    return found


def table_of(crates):
    declared = set()
    for path in files_of("crates", ".antt"):
        for name, of in DECLARED.findall(QUIET.sub(" ", text_of(path))):
            if name[0].islower() and not MADE.match(of.strip()):
                declared.add(name)
    table = {it: CHOSEN.get(it, in_snake_case(it)) for it in declared}
    return {old: new for old, new in table.items() if old != new}


def in_code(text, table, staying):
    def word(m):
        old = m[0]
        if old not in table or old in staying:
            return old
        if text[m.start() - 1 : m.start()] == ".":
            head = re.search(r"[^\s{}(),;\"]*$", text[: m.start()])[0]
            if re.match(r"(?:c|tie|goal)\.", head):
                return old
        return table[old]

    return WORD.sub(word, text)


def in_spans(text, table, staying):
    return SPAN.sub(lambda m: "`" + in_code(m[0][1:-1], table, staying) + "`", text)


def beside(text, quiet, table, staying):
    """The text, with what is quoted left alone and of comments only the code spans turned."""
    out, at = [], 0
    for m in quiet.finditer(text):
        out.append(in_code(text[at : m.start()], table, staying))
        comment = m[0].startswith(("--", "//", "{-"))
        out.append(in_spans(m[0], table, staying) if comment else m[0])
        at = m.end()
    return "".join(out) + in_code(text[at:], table, staying)


def in_edit(text, table):
    lines = []
    for line in text.split("\n"):
        is_text = line.startswith(("old:", "new:"))
        lines.append((in_code if is_text else in_spans)(line, table, set()))
    return "\n".join(lines)


def fall_together(path, text, table):
    words = collections.defaultdict(set)
    for word in WORD.findall(text):
        words[table.get(word, word)].add(word)
    for new, olds in words.items():
        if len(olds) > 1 and any("-" in it for it in olds):
            yield f"{path}: {', '.join(sorted(olds))} would all be {new}"


def main():
    crates = set(os.listdir("crates"))
    table = table_of(crates)
    wide = {**{it: in_snake_case(it) for it in TURNED}, **table}
    if sys.argv[1:] == ["--list"]:
        print("\n".join(f"{old}\t{new}" for old, new in sorted(wide.items())))
        return
    clashes, made = [], {}
    for path in files_of("crates", (".antt", ".rt")):
        text, of_antt = text_of(path), path.endswith(".antt")
        quiet = QUIET if of_antt else QUIET_RUST
        staying = kit_names(text, crates)
        clashes += fall_together(path, quiet.sub(" ", text), {k: v for k, v in table.items() if k not in staying})
        made[path] = beside(text, quiet, table, staying)
    for path in files_of("crates", ".edit"):
        made[path] = in_edit(text_of(path), wide)
    for path in ["README.md", *files_of("docs", ".md")]:
        made[path] = in_spans(text_of(path), wide, set())
    if clashes:
        raise SystemExit("\n".join(clashes))
    for path, text in made.items():
        if text != text_of(path):
            with open(path, "w", encoding="utf-8") as f:
                f.write(text)


if __name__ == "__main__":
    main()
