#!/usr/bin/env python3
"""Spells this repository's own definitions and lemmas as the kit's are spelled, after /opt/rattle/port/port.py.

usage: python3 tools/respell.py        at the top of the repository, once

Words are in snake case, types and modules in camel case, and a dash joins two names (CONTRACT_STYLE.md of the kit, "Names").
So `firstFrom` becomes `first_from`; a lemma's name keeps its dashes. Where a definition and a lemma would fall together,
as `answerAt` and the lemma that port.py made `answer_at` of `answer-at`, the lemma gets its dash back.

It turns whole words: in .antt the code and the code spans of comments, in .rt the same, in must-fail edits the texts `old:` and
`new:`, in pages the code spans. Functions of src/ are in snake case as they are; strings, inputs and outputs stay.
"""

import os
import re

WORD = re.compile(r'[^\s(){}.;,@"«»]+')
# what is not code: strings and comments, of .antt and of .rt
ANTT_QUIET = re.compile(r'"(?:[^"\\\n]|\\.)*"|(?<![^\s(){}.;,@"«»])--[^\n]*|\{-.*?-\}', re.S)
RT_QUIET = re.compile(r'b?"(?:[^"\\]|\\.)*"|//[^\n]*')
SPAN = re.compile(r"`[^`\n]+`")
HUMP = re.compile(r"(?<=[a-z0-9])[A-Z]")

# lemmas of which port.py took the dash, where the definition's name in snake case is the same
DASHED = (
    "answer_at by_row by_value carried_on cells_fit chosen_at end_before held_after held_fits is_free list_back next_row no_cell "
    "no_table none_found plain_value range_at range_back some_at text_at value_in zero_held"
).split()
LEMMA = re.compile(r"(?<![\w'.:-])(" + "|".join(DASHED) + r")(?![\w'.-])")


def part(name):
    """One name between dashes: lower camel case becomes snake case, and a type's or a module's name stays."""
    if not name[:1].islower():
        return name
    return HUMP.sub(lambda m: "_" + m[0].lower(), name)


def word(found):
    return "-".join(part(name) for name in found[0].split("-"))


def code(text, lemmas):
    if lemmas:
        text = LEMMA.sub(lambda m: m[1].replace("_", "-"), text)
    return WORD.sub(word, text)


def spans(text, lemmas=False):
    return SPAN.sub(lambda m: code(m[0], lemmas), text)


def around(quiet, text, lemmas):
    """Code is turned, a string stays, and of a comment the code spans are turned."""
    made, at = [], 0
    for q in quiet.finditer(text):
        made.append(code(text[at : q.start()], lemmas))
        made.append(q[0] if q[0].lstrip("b").startswith('"') else spans(q[0], lemmas))
        at = q.end()
    made.append(code(text[at:], lemmas))
    return "".join(made)


def edit(text):
    """The texts of a must-fail edit, each as the file that it changes."""
    antt = re.search(r"(?m)^file: .*\.antt$", text) is not None
    quiet = ANTT_QUIET if antt else RT_QUIET
    return re.sub(r"(?m)^((?:old|new): )(.*)$", lambda m: m[1] + around(quiet, m[2], antt), text)


def main():
    for top in ("crates", "docs", "README.md", "CHANGELOG.md"):
        for path in [top] if os.path.isfile(top) else sorted(below(top)):
            with open(path, encoding="utf-8") as f:
                old = f.read()
            if path.endswith(".antt"):
                new = around(ANTT_QUIET, old, True)
            elif path.endswith(".rt"):
                new = around(RT_QUIET, old, False)
            elif path.endswith(".edit"):
                new = edit(old)
            elif path.endswith(".md"):
                new = spans(old)
            else:
                continue
            if new != old:
                with open(path, "w", encoding="utf-8") as f:
                    f.write(new)


def below(top):
    for folder, folders, files in os.walk(top):
        folders[:] = [f for f in folders if f != "out"]
        yield from (os.path.join(folder, f) for f in files)


if __name__ == "__main__":
    main()
