#!/usr/bin/env python3
"""Brings the repository's own definitions and lemmas to the spelling of today's Rattle, after port.py has run.

    python3 tools/respell.py [FOLDER]

Words are in snake case: `scanRefusals` becomes `scan_refusals`, and `timedOut-sound` becomes `timed_out-sound`. The texts and names of
a case, `J41-006` and `K41-006`, begin with a small letter. A fact is spelled as a type: `short` of desk_line becomes `Short`.
Constructors that are the calls' own names (`StartScan`, `Tick`) stay as they are, and so do strings, the functions of src/, exported
names, inputs and outputs. It is run once, and says which words fall together with others.
"""
import collections
import pathlib
import re
import sys

ROOT = pathlib.Path(sys.argv[1] if len(sys.argv) > 1 else ".")
CAMEL = re.compile(r"[a-z][a-z0-9]*(?:[A-Z][a-z0-9]*)+'*")
CASE_NAME = re.compile(r"[JK][0-9]+(?:-[0-9]+)?")
WORD = r"(?<!\w)[^\W\d][\w'·]*(?:-[\w'·]+)*"
# a string, a byte or a char, a comment, a word
PIECE = re.compile(r"\"(?:[^\"\\]|\\.)*\"|b?'(?:[^'\\]|\\.)'|(?:--|//)[^\n]*|" + WORD)
FACTS = {"desk_line": {"short": "Short"}}


def snake(word: str) -> str:
    return re.sub(r"([A-Z])", lambda m: "_" + m.group(1).lower(), word)


def respelt(word: str) -> str:
    return "-".join(snake(part) if CAMEL.fullmatch(part) else part for part in word.split("-"))


def turned(text: str, facts: dict, antt: bool) -> str:
    def piece(m: re.Match) -> str:
        s = m.group(0)
        if s[0] == '"' or (s[-1] == "'" and "'" in s[:-1]):
            return s
        if s.startswith(("--", "//")):
            return s[:2] + re.sub(WORD, lambda w: respelt(w.group(0)), s[2:])
        if antt and CASE_NAME.fullmatch(s):
            return s.lower()
        return facts.get(s, respelt(s))

    return PIECE.sub(piece, text)


def files() -> list:
    found = []
    for pattern in ("specs/**/*.antt", "proofs/**/*.antt", "src/**/*.rt", "must-fail/*.edit", "wrong/*.edit"):
        found += sorted(ROOT.glob("crates/*/" + pattern))
    return found


def main() -> int:
    words: dict = collections.defaultdict(set)  # the words as they stand, by what they become
    outcome = {}
    for path in files():
        text = path.read_text()
        antt = path.suffix == ".antt"
        facts = FACTS.get(path.relative_to(ROOT).parts[1], {}) if antt else {}
        new = turned(text, facts, antt)
        for was, now in zip(re.findall(r"[\w'·-]+", text), re.findall(r"[\w'·-]+", new)):
            words[now].add(was)
        if new != text:
            outcome[path] = new
    fallen = {now: was for now, was in words.items() if len(was) > 1}
    for now, was in sorted(fallen.items()):
        print(f"respell: fall together as {now}: {', '.join(sorted(was))}")
    for path, new in outcome.items():
        path.write_text(new)
    pages = [ROOT / "README.md", *sorted(ROOT.glob("docs/*.md"))]
    for page in pages:
        if page.exists():
            text = page.read_text()
            page.write_text(re.sub(r"`[^`\n]+`", lambda m: re.sub(WORD, lambda w: respelt(w.group(0)), m.group(0)), text))
    print(f"respell: {len(outcome)} files")
    return 0


if __name__ == "__main__":
    sys.exit(main())
