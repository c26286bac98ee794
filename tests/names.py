#!/usr/bin/env python3
"""Looks for the declaration of every name in backticks, and for the file of every link, that the documents have.

Usage: tests/names.py [FILE ...], by default DOCUMENTS. A name has to be declared, which is more than to occur: as a definition, theorem, type,
field or constructor (.antt), a function, method, struct, enum or constant (.rt, .rs), in the header, as a crate, a file or a must-fail edit.

Where the document says where, it has to be declared there: `[`name`](FILE)`, "`name` in CRATE", "`name` of CRATE", "`name` (CRATE)",
`CRATE::name`, `Type::name`, the crate of a table row whose first column is called "crate", and under "## NAME.rs" the file in the next brackets of
the cell, or for a lemma the crate NAME. In
`f x y` and in `Type { field }` each word has to be declared, also as a parameter or a field. A word CRATE/NAME outside backticks is a path or
an edit. Prints each name that is missing with its file and line and ends with status 1; else prints how many there were.
"""
import glob
import os
import re
import sys

ROOT = os.path.dirname(os.path.dirname(os.path.abspath(__file__)))
DOCUMENTS = ["README.md", "docs/RULES.md", "docs/CONTRACTS.md", "docs/EXCEPTIONS.md", "docs/DECISIONS.md"]
# Backticked words that nothing here declares, each with the reason. One that no document has any more is reported too.
FOREIGN = {
    "requires": "a word of the language", "ensures": "a word of the language", "true": "a word of the language",
    "result": "what a call returns", "now": "what lent bytes are", "old": "what they are when a call begins", "new": "when it returns",
    "Option": "a library type", "Result": "a library type",
    "self": "a word of the language", "mut": "a word of the language", "inv": "upstream's", ".antt": "the ending of the files of definitions and proofs",
    "rt": "the kit's command", "od": "a command of the system", "xargs": "a command of the system",
    "N passed, 0 failed": "the last line of the kit's gate",
    "says result ≡ rule args": "the form of a contract, with names that stand for any",
}
PATH = re.compile(r"\.?[\w*.-]*/[\w*./-]*|[\w-]+\.(?:antt|rt|rs|py|h|md|txt|edit)")
LINK = re.compile(r"\[((?:[^\[\]`]|`[^`]*`)*)\]\(([^()\s]+)\)")
LITERAL = re.compile(r"(?=.*\d)(?:0x)?[\dA-Fa-f_]+|[^\w]*|&(?:mut)?")


def read(path):
    with open(os.path.join(ROOT, path), encoding="utf-8") as file:
        return file.read().split("\n")


def files(pattern):
    """The files and folders of a pattern, as paths from the top. What a command makes, in the folder `out` of a crate, is none of them."""
    found = (os.path.relpath(path, ROOT) for path in glob.glob(os.path.join(ROOT, pattern), recursive=True))
    return sorted(path for path in found if not re.match(r"crates/\w+/out(?:/|$)", path))


def antt_names(lines):
    """What a `where` declares for one proof, and the answers to the goals of a function's proof, are no names. Its invariants and measures are."""
    names, local, block = set(), None, None
    for line, below in zip(lines, lines[1:] + [""]):
        code = re.sub(r"(^|\s)--.*", "", line).rstrip()
        word, indent = code.strip(), len(code) - len(code.lstrip())
        if not word or local is not None and indent > local:
            continue
        local = indent if word == "where" else None
        if block and indent <= block[1]:
            block = None
        opened = re.match(r"(?:pub )?(data|record) ([^\s{(]+)", word)
        if opened:
            names.add(opened[2])
            block = (opened[2], indent, opened[1])
        elif block and block[2] == "data":
            made = re.match(r"([^:(){}]+) :(?: |$)", word)
            for name in made[1].split() if made else []:
                names |= {name, f"{block[0]}.{name}"}
        else:
            made = re.match(r"(?:(?:pub|abbrev|unfoldable) )*([^\s:(){}]+) :(?: |$)", word)
            said = made and (word[made.end():] or below.strip())
            if made and not re.match(r"goal\.(?!invariant-|decreases-)", said):
                names.add(f"{block[0]}.{made[1]}" if block else made[1])
    return names


def rust_names(lines):
    """Functions, also as Type::name, types, fields as Type.field, cases as Type::Case, constants; and `name:` alone for a parameter or field."""
    names, block = set(), None
    for line in lines:
        code = line.split("//")[0].rstrip()
        names |= {f"{name}:" for name in re.findall(r"\b([a-z]\w*): ", code)}
        opened = re.match(r"(?:pub(?:\(\w+\))? )?(?:(impl)(?:<.*?>)? (?:[^{]* for )?|(?:struct|enum|mod|trait) )(\w+)", code)
        if opened:
            block = opened[2] if code.endswith("{") else None
            names |= {opened[2]} if not opened[1] else set()
        elif code == "}":
            block = None
        made = re.match(r'\s*(?:pub(?:\(\w+\))? )?(?:extern "C" )?(?:fn|const) (\w+)\s*[(:<]', code)
        field = re.match(r"    (?:pub )?(\w+): ", code)
        case = re.match(r"    ([A-Z]\w*)[,({ ]", code)
        if made:
            names |= {made[1], f"{block}::{made[1]}"} if block else {made[1]}
        elif block and field:
            names.add(f"{block}.{field[1]}")
        elif block and case:
            names.add(f"{block}::{case[1]}")
    return names


def c_names(lines):
    found = [re.match(r"#define (\w+)|(?!return|else)(?:static )?\w+ \*?(\w+)\(", line) for line in lines]
    return {name for made in found if made for name in made.groups() if name}


def declared():
    """Which files declare a name. The names of a Python script are nobody's but its own."""
    kinds = {".antt": antt_names, ".rt": rust_names, ".rs": rust_names, ".h": c_names, ".c": c_names}
    where = {}
    for folder in ("crates", "include", "bench", "compare", "tests"):
        for path in files(f"{folder}/**/*.*"):
            stem, suffix = os.path.splitext(path)
            names = {os.path.basename(stem)} if suffix == ".edit" else kinds[suffix](read(path)) if suffix in kinds else set()
            for name in names:
                where.setdefault(name, set()).add(path)
    # The calls that the stored output of single_calls shows, a line each.
    for name in {re.split(r"[ :]", line)[0] for line in read("crates/single_calls/stdout") if line}:
        where.setdefault(name, set()).add("crates/single_calls/stdout")
    return where


WHERE = declared()
CRATES = {path.split(os.sep)[1] for path in files("crates/*/src")}
# The crates that are static libraries, and those of them that tools/archives copies.
STATIC = {line.split()[0] for line in read("crates.txt") if re.match(r"\w+ staticlib\b", line)}
ARCHIVES = {name for line in read("bench/steps") if line.startswith("archives='") for name in line.split("'")[1].split() if f"{name}_c" in STATIC}


def source_of(text):
    """The root file of the crate of a program or an archive: `rt run` makes crates/NAME/out/NAME, and `rt lib` crates/NAME/out/libNAME.a,
    which tools/archives copies to target/staticlib without the ending _c, if NAME is one of its `archives`."""
    program = re.fullmatch(r"crates/(\w+)/out/\1", text)
    library = re.fullmatch(r"crates/(\w+)/out/lib\1\.a", text)
    copy = re.fullmatch(r"target/staticlib/lib(\w+)\.a", text)
    if copy and copy[1] in ARCHIVES:
        return f"crates/{copy[1]}_c/src/lib.rt"
    if library and library[1] in STATIC:
        return f"crates/{library[1]}/src/lib.rt"
    return program and f"crates/{program[1]}/src/main.rt"


def find_paths(text, document):
    """The files of a path that starts at the top, at the document, in crates/ or in a crate. NAME and * stand for any; CRATE/EDIT is an edit."""
    text = source_of(text) or text
    shape = re.sub(r"\bNAME\b", "*", text)
    tries = [shape, os.path.join(os.path.dirname(document), shape), f"crates/{shape}", f"crates/*/{shape}", f"crates/{shape}.antt", f"crates/{shape}.rt"]
    if "/" not in shape:
        tries.append(f"crates/*/*/{shape}")
    elif shape.count("/") == 1:
        tries.append("crates/{}/must-fail/{}.edit".format(*shape.split("/")))
    else:
        tries.append(f"crates/{shape}.edit")
    return [path for pattern in tries for path in files(pattern)]


def has(name, home=None):
    """It is declared, in or below a place if one is given. CRATE::name is declared in the code of that crate."""
    crate, _, rest = name.partition("::")
    if rest and crate in CRATES:
        return has(rest, f"crates/{crate}/src")
    return any(home is None or path == home or path.startswith(f"{home}/") for path in WHERE.get(name, ()))


def missing(text, document, home):
    """What of a backticked text is not declared: a command's crates and files, a path, a type's fields, the words of a formula, or a name."""
    if text.startswith("rt "):
        crates = re.findall(r"\brt [\w-]+ ([A-Za-z]\w*)", text)
        return [word for word in crates if word not in CRATES] + [word for word in text.split() if "/" in word and not find_paths(word, document)]
    if PATH.fullmatch(text):
        return [] if find_paths(text, document) else [text]
    lent = re.fullmatch(r"(\w+)\.(?:now|old|new)", text)
    if lent:
        return [] if f"{lent[1]}:" in WHERE else [text]
    fields = re.fullmatch(r"(\w+) \{ ([\w, ]+) \}", text)
    if fields:
        words = [fields[1]] + [f"{fields[1]}.{field}" for field in fields[2].split(", ")]
        return [word for word in words if not has(word)]
    if " " in text:
        words = [word for word in re.findall(r"[^\s().&]+", text) if len(word) > 1 and re.search(r"\w", word)]
        return [word for word in words if not (word in FOREIGN or has(word) or f"{word}:" in WHERE)]
    text = text.lstrip("&")
    if text in FOREIGN or text in CRATES and not (home or "").endswith((".antt", ".rt")):
        return []
    return [] if has(text, home) else [text]


def slug(heading):
    return re.sub(r"[^\w -]", "", heading.lstrip("#").strip().lower()).replace(" ", "-")


def dead(target, document):
    """A link that leads to no file, or to no heading of it. Those to other sites are not followed."""
    if "://" in target:
        return False
    path, _, heading = target.partition("#")
    path = os.path.normpath(os.path.join(os.path.dirname(document), path)) if path else document
    if not os.path.exists(os.path.join(ROOT, path)):
        return True
    return bool(heading) and heading not in {slug(line) for line in read(path) if line.startswith("#")}


def bracketed(rest, section):
    """The file in the next brackets of a table's cell, from crates/ on or in the crate of its section, without its ending."""
    said = re.search(r"\((\w+(?:/\w+)*)\)", re.split(r"[;|]", rest)[0])
    if not said or section is None:
        return None
    place = said[1] if "/" in said[1] else f"{section[len('crates/'):]}/*/{said[1]}"
    found = files(f"crates/{place}.antt") + files(f"crates/{place}.rt")
    return found[0] if len(found) == 1 else None


def home_after(rest, document):
    """The crate or file that a document names right behind a name."""
    said = re.match(r" (?:in|of) `?([\w/.-]*\w)`?| \((?:crate )?(\w+)\)", rest)
    place = said and (said[1] or said[2])
    if place in CRATES:
        return f"crates/{place}"
    found = find_paths(place, document) if place and PATH.fullmatch(place) else []
    return found[0] if len(found) == 1 else None


def lines_of(document):
    """Each line of text with its number, the crate of its table row if the first column is called "crate", and the crate of its section."""
    header, section, fenced, before = None, None, False, ""
    for number, line in enumerate(read(document), 1):
        fenced ^= line.startswith("```")
        if line.startswith("#"):
            named = re.fullmatch(r"#+ (\w+)\.rs", line)
            section = f"crates/{named[1]}" if named and named[1] in CRATES else None
        first = line.split("|")[1].strip() if line.startswith("|") else None
        header = first if not before.startswith("|") else header
        before = line
        if not fenced and not line.startswith("    "):
            yield number, line, f"crates/{first}" if header == "crate" and first in CRATES else None, section


def check(document):
    """The faults, each with its line; the names and links that were looked for; the foreign words that were met."""
    faults, names, links, foreign = [], [], [], []
    for number, line, row, section in lines_of(document):
        linked = {}
        for link in LINK.finditer(line):
            links.append(link[2])
            if dead(link[2], document):
                faults.append(f"{document}:{number}: the link {link[2]} leads nowhere")
            elif not link[2].split("#")[0].endswith(".md"):
                path = os.path.normpath(os.path.join(os.path.dirname(document), link[2]))
                linked.update({at: path for at in range(link.start(1), link.end(1))})
        for code in re.finditer(r"`([^`]+)`", line):
            foreign += [word for word in (code[1], *code[1].split(), *re.findall(r"\w+", code[1])) if word in FOREIGN]
            if code[1] in FOREIGN or LITERAL.fullmatch(code[1]):
                continue
            names.append(code[1])
            lemma = section if re.fullmatch(r"[a-z]+(-[\w']+)+", code[1]) else None
            rest = line[code.end():]
            home = linked.get(code.start()) or home_after(rest, document) or bracketed(rest, section) or row or lemma
            where = f" in {home}" if home else ""
            faults += [f"{document}:{number}: {word} is not declared{where}" for word in missing(code[1], document, home)]
        plain = re.sub(r"`[^`]*`|\]\([^)]*\)", " ", line)
        for word in re.findall(r"(?<![\w/.-])((?:%s)/[\w./-]*\w)" % "|".join(sorted(CRATES)), plain):
            names.append(word)
            faults += [] if find_paths(word, document) else [f"{document}:{number}: {word} is no file and no edit"]
    return faults, names, links, foreign


def main():
    documents = [os.path.relpath(os.path.abspath(path), ROOT) for path in sys.argv[1:]] or DOCUMENTS
    faults, names, links, foreign = ([one for part in parts for one in part] for parts in zip(*map(check, documents)))
    if documents == DOCUMENTS:
        faults += [f"tests/names.py: no document has {word} any more ({why})" for word, why in FOREIGN.items() if word not in foreign]
    if faults or not names:
        sys.exit("\n".join(faults) or "no names")
    print(f"{len(names)} names and {len(links)} links are there")


if __name__ == "__main__":
    main()
