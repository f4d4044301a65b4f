#!/usr/bin/env python3
"""Spells the repository's own definitions, lemmas and fields in snake case: firstLocked and first-locked become first_locked.

usage: python3 tools/respell.py        at the top of the repository, once, on files that are committed

What is respelled: each name that a file of specs/, or a shared file of proofs/, declares with a lower case letter first.
Where: in .antt files, in .rt files, in must-fail edits, and in pages between backticks; in a comment between backticks alone.
Types, modules, functions of src/, strings, inputs and outputs keep their names. Where a lemma's new name would meet a
definition's, OTHER has the lemma's. What still meets another name in a file is left, and printed.
"""

import os
import re
import sys

TOKEN = re.compile(r"[\w'′-]+")
BARE = re.compile(r"(?<![\w.'′-])[\w'′-]+")
DECLARED = re.compile(r"(?m)^[ ]*(?:abbrev |unfoldable )?(?:pub )?([a-zα-ω][\w'′-]*)(?= (?:\{[^{}\n]*\} )*:(?: |$))")
OTHER = dict([
    ("answer-line", "answer_line_law"),
    ("answer-note", "answer_note_law"),
    ("byte-sent", "byte_sent_law"),
    ("byte-taken", "byte_taken_law"),
    ("bytes_read", "bytes_read_law"),
    ("cut-register", "cut_register_law"),
    ("found-at", "found_at_law"),
    ("limit-bytes", "limit_bytes_law"),
    ("next-byte", "next_byte_law"),
    ("pel-message", "pel_message_law"),
    ("phase-fits", "phase_fits_law"),
    ("pin-high", "pin_is_high"),
    ("place_after", "place_after_law"),
    ("random-read", "random_read_law"),
    ("risen-by", "risen_by_law"),
    ("run-answers", "run_answers_law"),
    ("sent-events", "sent_events_law"),
    ("wait-bytes", "wait_bytes_law"),
    ("wait-fits", "wait_fits_law"),
    ("with-bit", "with_bit_law"),
])
KEYWORDS = {"record", "data", "pub", "use", "let", "field", "where", "abbrev", "unfoldable"}


def snake(name):
    words = re.sub(r"(?<=[a-z0-9])([A-Z])", lambda m: "_" + m[1].lower(), name)
    return words.replace("-", "_").replace("′", "'")


def files(*endings):
    for top in ("crates", "docs"):
        for folder, dirs, names in os.walk(top):
            dirs[:] = sorted(d for d in dirs if d != "out")
            yield from (os.path.join(folder, n) for n in sorted(names) if n.endswith(endings))
    yield from (n for n in sorted(os.listdir(".")) if n.endswith(".md") and ".md" in endings)


def shared(path):
    parts = path.split(os.sep)
    return path.endswith(".antt") and (parts[2] == "specs" or (parts[2] == "proofs" and len(parts) == 4))


def read(path):
    with open(path, encoding="utf-8") as f:
        return f.read()


def split(path, line):
    """A line's code and its comment."""
    mark = "--" if path.endswith(".antt") else "//"
    at = re.search(r"(?:^|(?<=\s))" + mark, line)
    return (line[: at.start()], line[at.start() :]) if at else (line, "")


def turned(text, new):
    return TOKEN.sub(lambda m: new.get(m[0], m[0]), text)


def quoted(text, new):
    return re.sub(r"`[^`\n]+`", lambda m: turned(m[0], new), text)


def main():
    texts = {p: read(p) for p in files(".antt", ".rt", ".edit", ".md")}
    declared = {}
    for path, text in texts.items():
        if shared(path):
            for name in DECLARED.findall(text):
                if name not in KEYWORDS:
                    declared.setdefault(name, set()).add(path)
    new = {n: OTHER.get(n, snake(n)) for n in declared if OTHER.get(n, snake(n)) != n}
    words = {p: set(BARE.findall("\n".join(split(p, l)[0] for l in t.splitlines()))) for p, t in texts.items() if p.endswith((".antt", ".rt"))}
    old = {}
    for name, to in sorted(new.items()):
        old.setdefault(to, []).append(name)
    for to, names in sorted(old.items()):
        for name in names:
            met = [p for p, w in words.items() if name in w and ((to in w and to not in new) or any(o in w for o in names if o != name))]
            antt = [p for p in met if p.endswith(".antt")]
            if antt or len(names) > 1:
                print(f"left: {name}: {to} stands in {', '.join(antt) or 'another declaration: ' + ', '.join(names)}")
                new.pop(name)
            elif met:
                print(f"look: {name}: {to} is also a word of {', '.join(met)}")
    for path, text in texts.items():
        # pages and edits have the old spelling of names that are in snake case already
        loose = {t: snake(t) for t in TOKEN.findall(text) if t not in new and snake(t) != t and snake(t) in declared}
        if path.endswith(".md"):
            out = quoted(text, {**loose, **new})
        elif path.endswith(".edit"):
            out = turned(text, {**loose, **new})
        else:
            halves = (split(path, line) for line in text.split("\n"))
            out = "\n".join(turned(code, new) + quoted(comment, new) for code, comment in halves)
        if out != text:
            with open(path, "w", encoding="utf-8") as f:
                f.write(out)
    print(f"{len(new)} names respelled")


if __name__ == "__main__":
    if not os.path.isdir("crates"):
        sys.exit("respell: run it at the top of the repository")
    main()
