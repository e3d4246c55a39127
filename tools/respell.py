#!/usr/bin/env python3
"""Brings this repository's own definitions and lemmas to snake case, in .antt files and in the clauses of .rt files.

usage: python3 tools/respell.py        at the top of the repository, once, right after port.py

A name is this repository's own where a file of specs/ or proofs/ declares it. Names of the kit, of the sources (functions, types,
fields, parameters) and generated ones (goals, steps) keep their spelling; so do code, strings, inputs and outputs. Names that would
fall together are told, and then nothing is written.
"""

import collections
import glob
import re
import sys

BREAK = r"\s(){}\[\].,;:\"`λ∀∃→≡≤≢←×↔∙⊎⌜⌝|"
TOKEN = re.compile(rf"[^{BREAK}]+")
OLD = re.compile(r"^[a-z][^\s]*$")
KEYWORDS = {"use", "pub", "abbrev", "unfoldable", "record", "data", "module", "where", "let", "in", "as", "mod", "syntax"}


# Where a field of specs/ would fall together with a definition, a name of its own.
CHOSEN = {
    "clocks-back": "none_clocks_back",
    "passed-hour": "none_passed_hour",
    "event-in": "event_within",
    "hours-in": "hours_within",
    "room-for": "room_enough",
    "up-to": "last_kilowatt",
    "wholeNumbers": "numbers_in_whole",
}


def snake(name):
    """The name in snake case: camelCase and hyphens become underscores, a prime an apostrophe."""
    name = name.replace("′", "'").replace("-", "_")
    name = re.sub(r"(?<=[a-z0-9'])([A-Z])", lambda m: "_" + m.group(1).lower(), name)
    return name


def own_files():
    return sorted(glob.glob("crates/*/specs/**/*.antt", recursive=True) + glob.glob("crates/*/proofs/**/*.antt", recursive=True))


def source_files():
    return sorted(glob.glob("crates/*/src/**/*.rt", recursive=True))


def crates():
    return {f.split("/")[1] for f in source_files()}


def imported(text, names):
    """Words that a file takes from the kit: from a module that is no crate of this repository's."""
    found = set()
    for path, words in re.findall(r"^\s*(?:ghost )?(?:pub )?use ([^\s{;]+?)\.?\{([^}]*)\}", text, re.M | re.S):
        parts = path.split(".")
        if parts[0] == "Rattle" and len(parts) > 1 and parts[1] in names:
            if "declared" in parts or "contracts" in parts:
                found |= set(re.findall(r"[^\s,{}]+", words))
            continue
        found |= set(re.findall(r"[^\s,{}]+", words))
    return found


def declared(text):
    """Words that a file declares: definitions, lemmas, fields, names bound by `let`, and parameters."""
    body = re.sub(r"--[^\n]*", "", text)
    found = set()
    for m in re.finditer(r"^\s*(?:abbrev |unfoldable |pub |record |data |let |in )*([^\s:(){}λ]+) :(?=\s)(?!\s*tie\.)", body, re.M):
        found.add(m.group(1))
    for m in re.finditer(r"\blet ([^\s:(){}=]+)(?= (?:=|:))", body):
        found.add(m.group(1))
    for m in re.finditer(r"[({]([^(){}:=]+) : ", body):
        found |= set(m.group(1).split())
    for m in re.finditer(r"λ ([^.()]+)\.", body):
        found |= set(m.group(1).split())
    for m in re.finditer(r"\bas ([a-z][^\s{}.,]*)", body):
        found.add(m.group(1))
    return {w for w in found if w not in KEYWORDS}


def code_words(text):
    """Words of a source outside its clauses and comments."""
    text = re.sub(r"//[^\n]*", "", text)
    text = re.sub(r"^\s*ghost use [^;]*;", "", text, flags=re.M | re.S)
    text = clauses(text)[1]
    return set(re.findall(r"\w+", text))


CLAUSE = re.compile(r"\b(?:requires|ensures)\b[^{]*\{")


def clauses(text):
    """The spans of a source's clauses, and the source without them."""
    spans, out, at = [], [], 0
    for m in CLAUSE.finditer(text):
        if m.start() < at:
            continue
        depth, k = 1, m.end()
        while depth and k < len(text):
            depth += {"{": 1, "}": -1}.get(text[k], 0)
            k += 1
        spans.append((m.end(), k - 1))
        out.append(text[at:m.start()])
        at = k
    out.append(text[at:])
    return spans, "".join(out)


def turn(text, names):
    return TOKEN.sub(lambda m: names.get(m.group(0), m.group(0)), text)


def turn_comment(text, names):
    """In comments a hyphenated word may be plain English, so it turns only between backticks."""
    text = re.sub(r"`[^`\n]*`", lambda m: turn(m.group(0), names), text)
    return turn(text, {k: v for k, v in names.items() if "-" not in k})


def turn_antt(text, names):
    out = []
    for line in text.split("\n"):
        code, dash, comment = line.partition("--") if re.search(r"(^|\s)--(\s|$)", line) else (line, "", "")
        if dash:
            m = re.search(r"(^|\s)--(?=\s|$)", line)
            code, comment = line[: m.end()], line[m.end():]
            out.append(turn(code, names) + turn_comment(comment, names))
        else:
            out.append(turn(line, names))
    return "\n".join(out)


def turned(text):
    """The spans of a source that hold names of specs/: its clauses, and what it brings for them."""
    return sorted([(m.start(1), m.end(1)) for m in re.finditer(r"^\s*ghost use [^;{]*\{([^}]*)\}", text, re.M)] + clauses(text)[0])


def turn_source(text, names):
    out, at = [], 0
    for a, b in turned(text):
        if a < at:
            continue
        out += [plain(text[at:a], names), turn(text[a:b], names)]
        at = b
    out.append(plain(text[at:], names))
    return "".join(out)


def plain(text, names):
    return re.sub(r"//[^\n]*", lambda m: turn_comment(m.group(0), names), text)


def main():
    owners = crates()
    kit, own, words = set(), collections.defaultdict(set), set()
    for f in own_files():
        text = open(f, encoding="utf-8").read()
        kit |= imported(text, owners)
        for w in declared(text):
            own[w].add(f)
    for f in source_files():
        text = open(f, encoding="utf-8").read()
        kit |= imported(text, owners)
        words |= code_words(text)
    taken = {w for w in own if snake(w) == w} | {snake(w) for w in own if "-" not in w} | kit
    names = {}
    for w in own:
        if w in kit or w in words or "·" in w or not OLD.match(w):
            continue
        if re.search(r"[a-z0-9']-[a-z0-9A-Z]|[a-z0-9'][A-Z]|′", w):
            # a law of a definition may have had the definition's name, but for its spelling
            names[w] = CHOSEN.get(w) or snake(w) + ("_lem" if "-" in w and snake(w) in taken else "")
    # names that fall together in one file: two of ours, or one of ours and a word that stands there
    bad = []
    local = collections.defaultdict(dict)
    for f in own_files() + source_files():
        text = open(f, encoding="utf-8").read()
        if f.endswith(".rt"):
            text = "\n".join(text[a:b] for a, b in turned(text))
        full = text
        text = re.sub(r"--[^\n]*|\bRattle(?:\.[^\s.{}]+)*|\b\w+(?:\.\w+)+(?=\.\{)", "", text)
        here = set(TOKEN.findall(text))
        after = collections.defaultdict(set)
        for w in here:
            after[names.get(w, w)].add(w)
        for new, ws in after.items():
            if len(ws) > 1 and new in ws and new not in imported(full, set()):
                local[f][new] = new + "_lem"
            elif len(ws) > 1:
                bad.append(f"{f}: " + ", ".join(sorted(ws)))
    if bad:
        print("\n".join(sorted(bad)))
    if bad and "--anyway" not in sys.argv:
        print("respell: names fall together; nothing was written")
        return 1
    if "--list" in sys.argv:
        for w in sorted(names):
            print(w, names[w])
        return 0
    for f in own_files() + source_files():
        text = open(f, encoding="utf-8").read()
        for w, n in local[f].items():
            text = re.sub(rf"(?<![\w.'-]){re.escape(w)}(?![\w'-])", n, text)
        new = turn_antt(text, names) if f.endswith(".antt") else turn_source(text, names)
        if new != text:
            open(f, "w", encoding="utf-8").write(new)
    print(f"respell: {len(names)} names")
    return 0


if __name__ == "__main__":
    sys.exit(main())
