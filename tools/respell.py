#!/usr/bin/env python3
"""Brings this repository's own definitions and lemmas to the spelling of today's Rattle, behind port.py: words in snake case, types and
modules in camel case, ′ as '. It turns crates/ (sources, specs, proofs) and the words of the must-fail edits, of the pages, of checks/,
tools/ and second/ that name a definition. It was run once, on the commit that docs/PORT.md names.

usage: tools/respell.py FORMER     at the top of the tree, behind port.py; FORMER is a checkout of the commit before port.py
"""
import os
import re
import sys

import ends_quietly  # when its reader has gone

# A name that would fall together with another one in a file that has both.
EXCEPT = {"atFirst": "sender_at_first"}
# Lemmas that port.py respelled (a library had their spelling), in files where a definition has that name now.
LOCAL = {
    "crates/batch/proofs/Middle.antt": {"goes_on": "going-on"},
    "crates/port/proofs/NothingLost.antt": {"read_done": "reads-done", "read_opened": "reads-opened"},
    "crates/held/proofs/Coded.antt": {"from_zero": "from-zero-first"},
}
WORD = re.compile(r"[a-z][a-z0-9]*(?:_[a-z0-9]+)*[A-Z][A-Za-z0-9_]*")
EDGE = r"A-Za-z0-9_'"


def respelled(word):
    """A word of a name: between hyphens. A part that begins with a capital is a type's name and stays."""
    if word in EXCEPT:
        return EXCEPT[word]
    parts = [re.sub(r"[A-Z]", lambda m: "_" + m.group().lower(), p) if re.match(r"[a-z].*[A-Z]", p) else p for p in word.split("_")]
    return "_".join(parts)


def own_texts(ends):
    for folder, dirs, files in os.walk("crates"):
        dirs[:] = sorted(d for d in dirs if d != "out")
        for f in sorted(files):
            if f.endswith(ends):
                yield os.path.join(folder, f)


def read(path):
    with open(path, encoding="utf-8") as f:
        return f.read()


def put(path, text, before):
    if text != before:
        with open(path, "w", encoding="utf-8") as f:
            f.write(text)
        return 1
    return 0


def names(text):
    return set(re.findall(rf"(?<![{EDGE}])({WORD.pattern})(?![{EDGE}])", text))


def turn(text, words):
    for word in sorted(words, key=len, reverse=True):
        text = re.sub(rf"(?<![{EDGE}]){re.escape(word)}(?![{EDGE}])", words[word], text)
    return text


def signatures(text):
    """The names that a file of definitions declares, in their order."""
    text = re.sub(r"--[^\n]*", "", text)
    found = []
    for m in re.finditer(r"^\s*(?:abbrev |unfoldable |pub |open |data |record |infix[lr]? \d+ )*((?:[^\s(){}\[\];,.:\"@]+\s+)+):(?=\s)", text, re.M):
        found += m.group(1).split()
    return found


def by_port(former):
    """What port.py itself respelled: the declarations of each file then and now, side by side."""
    turned = {}
    for path in own_texts(".antt"):
        old = os.path.join(former, path)
        if not os.path.exists(old):
            continue
        before, now = signatures(read(old)), signatures(read(path))
        if len(before) == len(now):
            turned.update((a, b) for a, b in zip(before, now) if a != b and re.match(r"[a-z]", a))
    return turned


def own_choice_to_std(path, text):
    """The operator of `Words` in crate record is std's now: the same `cond`, and no operator of these texts binds between the two."""
    choice = "if◌then◌else◌"

    def line(m):
        rest = [w for w in (w.strip() for w in m.group(2).split(",")) if w and w != choice]
        end = ";" if m.group(1).startswith("ghost") else ""
        own = f"{m.group(1)}Rattle.record.specs.Words.{{{', '.join(rest)}}}{end}\n" if rest else ""
        return f"{m.group(1)}Rattle.std.specs.Prelude.{{{choice}}}{end}\n" + own

    text = re.sub(r"^((?:ghost )?use )Rattle\.record\.specs\.Words\.\{([^}]*" + choice + r"[^}]*)\};?\n", line, text, flags=re.M)
    if path == "crates/record/specs/Words.antt":
        text = re.sub(r"infix 20 if_then_else_\n(?:.*\n){2}\n", "", text).replace(", cond, not,", ", not,")
    return text


def main(argv):
    if argv == ["--help"]:
        print(__doc__.strip())
        return 0
    if len(argv) != 1 or not os.path.isdir(argv[0]):
        print(__doc__.strip(), file=sys.stderr)
        return 2
    words = {}
    for path in own_texts((".antt", ".rt")):
        text = read(path)
        if path.endswith(".rt"):
            text = re.sub(r"b'.'|\"(?:[^\"\\\\]|\\\\.)*\"", "", text)
        words.update((w, respelled(w)) for w in names(text))
    taken = {}
    for a, b in words.items():
        if taken.setdefault(b, a) != a:
            print(f"fall together: {a} and {taken[b]} are {b}")
            return 1
    changed = 0
    for path in own_texts((".antt", ".rt")):
        before = read(path)
        text = turn(before, LOCAL.get(path, {}))
        text = turn(text, words).replace("′", "'")
        changed += put(path, own_choice_to_std(path, text), before)
    elsewhere = by_port(argv[0]) | words
    # Only what is a name of a definition and no word of a page: with a capital or a hyphen in it.
    elsewhere = {a: b for a, b in elsewhere.items() if re.search(r"[A-Z]", a)}
    for path in own_texts(".edit"):
        before = read(path)
        changed += put(path, turn(before, elsewhere).replace("′", "'"), before)
    pages = ["README.md"] + [os.path.join("docs", f) for f in sorted(os.listdir("docs")) if f.endswith(".md")]
    for path in pages:
        before = read(path)
        text = re.sub(r"`[^`\n]+`", lambda m: turn(m.group(), elsewhere).replace("′", "'"), before)
        changed += put(path, text, before)
    for a in sorted(elsewhere):
        print(a, elsewhere[a])
    print(f"{changed} files changed, {len(elsewhere)} names", file=sys.stderr)
    return 0


if __name__ == "__main__":
    raise SystemExit(main(sys.argv[1:]))
