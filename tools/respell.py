#!/usr/bin/env python3
"""Brings the names of this repository's definitions and lemmas to snake case, by the table respell.tsv beside it.

usage: respell.py ROOT

The table has a row for each name: old, a tab, new. It turns whole words: in the code of .antt files; in the lines of
.rt files; in must-fail edits; in comments where a word is in camel case or stands between backquotes; in the code spans
of .md files. Strings and the names of functions, files and exports stay as they are. Run it once.
"""

import glob
import os
import re
import sys

HERE = os.path.dirname(os.path.abspath(__file__))
WORD = re.compile(r"[A-Za-z][\w'′-]*")
SPAN = re.compile(r"`[^`\n]*`")
# Local names that fall together with a definition's new name, by file.
LOCAL = {
    "crates/digits/proofs/Placed.antt": {"has_room": "room_is_there"},
    "crates/listings/proofs/Room.antt": {"has_room": "room_is_there"},
    "crates/whole_listing/proofs/Blocks.antt": {"in_blocks": "in_blocks_law"},
    "crates/whole_listing/proofs/Program.antt": {"in_blocks": "in_blocks_law"},
    "crates/runs/proofs/Holders.antt": {"is_read": "reads_only"},
    "crates/runs/proofs/history/Related.antt": {"one_more": "one_request_more"},
    "crates/runs/proofs/refinement/Starts.antt": {"taken_out": "taken_out_law"},
    "crates/runs/proofs/refinement/Call.antt": {"taken_out": "taken_out_law"},
    "crates/requests/proofs/placing/take_out/Proof.antt": {"taken_out": "taken_out_law"},
    "crates/replay/proofs/replay_records/replay_record/Proof.antt": {"call_step": "call_step_law"},
    "crates/requests/proofs/placing/PutIn.antt": {"taken_out": "taken_out_law"},
    "crates/replay/proofs/replay_records/Steps.antt": {"call_step": "call_step_law"},
}


def table():
    with open(os.path.join(HERE, "respell.tsv"), encoding="utf-8") as f:
        return dict(line.rstrip("\n").split("\t") for line in f if line.strip())


def turn(text, rows):
    return WORD.sub(lambda m: rows.get(m.group(0), m.group(0)), text)


def steps(text, rows):
    """In the proof of a function a name behind a dot is mostly a step, which has the spelling of the source."""
    plain = {a: b.removesuffix("_law") for a, b in rows.items()}
    return WORD.sub(lambda m: (plain if text[m.start() - 1 : m.start()] == "." else rows).get(m.group(0), m.group(0)), text)


def prose(text, rows):
    camel = {a: b for a, b in rows.items() if re.search("[a-z][A-Z]", a)}
    parts, at = [], 0
    for m in SPAN.finditer(text):
        parts += [turn(text[at : m.start()], camel), turn(m.group(0), rows)]
        at = m.end()
    return "".join(parts) + turn(text[at:], camel)


def code(text, rows, comment, turn=turn):
    lines = []
    for line in text.split("\n"):
        k = line.find(comment)
        if k >= 0 and line[:k].count('"') % 2 == 0 and (k == 0 or line[k - 1] == " "):
            lines.append(turn(line[:k], rows) + prose(line[k:], rows))
        else:
            lines.append(turn(line, rows))
    return "\n".join(lines)


def spans(text, rows):
    return SPAN.sub(lambda m: turn(m.group(0), rows), text)


def main(root):
    rows = table()
    for pattern, how in [
        ("crates/*/specs/**/*.antt", lambda t, r: code(t, r, "--")),
        ("crates/*/proofs/**/*.antt", lambda t, r: code(t, r, "--", steps if "tie.close" in t else turn)),
        ("crates/*/src/**/*.rt", lambda t, r: code(t, r, "//")),
        ("crates/*/must-fail/*.edit", turn),
        ("*.md", spans),
        ("docs/**/*.md", spans),
    ]:
        for path in sorted(glob.glob(os.path.join(root, pattern), recursive=True)):
            with open(path, encoding="utf-8") as f:
                old = f.read()
            new = how(old, {**rows, **LOCAL.get(os.path.relpath(path, root), {})})
            if new != old:
                with open(path, "w", encoding="utf-8") as f:
                    f.write(new)


if __name__ == "__main__":
    main(sys.argv[1])
