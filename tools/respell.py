#!/usr/bin/env python3
"""Brings the names of this repository's own definitions and lemmas to the spelling that today's Rattle has for them.

usage: python3 tools/respell.py        at the top, once, after the toolchain's own port.py

Words are in snake case; a dash stays only where it joins the names of two definitions, as in length-placed. Names of
types, of functions in src/, of goals, and all text in quotes stay. Where two names would fall together, one gets
another name; those are listed apart below.
"""

import os
import re

SNAKE = """
at-record atRecord back-there band-more band-whole bandPasted beside-more both-and by-cols by-cut by-leaves by-sizes
causeNo causeOf causes-apart cols-go column-below column-more cond-pair countsOf deep-cols deep-enough deep-halved
deep-leaf deep-rows eachAt eachAt-none eachAt-then f-nav fits-flipped halves-cols halves-pasted halves-rows
holders-both i-nav in-column in-input in-output in-turn inStep inTiles input-len inverse-back inverse-finds
inverse-from inverse-right layerOf leafCount leaves-halves leavesPasted leavesWithin left-accepted long-accepted
long-by long-flipped make-sound no-bands no-column no-tiles none-cells none-places none-raised of-leaf ofRecord
off-block once-apart one-half only-accepted only-declined ordered-first ordered-from output-len page-long page-ordered
page-restored page-symbols part-ends partsPasted pasted-from-0 pathOf pending-last pending-more pending-none
pending-one pending-push placeOf-finds placed-from put-long put-out recordNo regionPasted rows-go same-fault sampleAt
sent-first shape-told sound-deep sound-halves sound-one sound-push sound-splits splitTiles statusOf stepNo symbols-by
symbols-flipped symbols-moved tile-more tileFits tiledCount tiles-below tiles-both tiles-end tiles-from-0 tilesFor
tilesOf tilesOn tilesWithin transposable-flipped transposed-cells transposed-from transposed-twice turn-inverses
turn-once turn-undone turnTests turned-at turned-back turned-below whole-lies whole-pasted whole-places wholeTiles
workedCounts
""".split()

# a dash between the names of two definitions stays
JOINED = {
    "at-record-applies": "at_record-Applies",
    "getD-eachAt": "get_or-each_at",
    "getD-inverse": "get_or-inverse",
    "getD-map-at": "get_or-map_at",
    "getD-order": "get_or-order",
    "getD-ordered": "get_or-ordered",
    "getD-placed": "get_or-placed",
    "length-eachAt": "length-each_at",
    "once-inverse": "Once-inverse",
    "once-order": "Once-order",
    "once-placed": "Once-placed",
    "once-same": "Once-same",
}

# these would fall together with a definition of the same words
APART = {
    "in-block": "cell_in_block",
    "leaves-pasted": "leaves_pasted-leaves",
    "whole-tiles": "whole_counted",
}

# a name of antt: letters, digits and the marks that may stand in it
WORD = re.compile(r'"[^"\n]*"|[^\W\d][\w\'-]*')


def snake(name):
    return re.sub(r"(?<=[a-z0-9])([A-Z])", lambda m: "_" + m.group(1).lower(), name).replace("-", "_")


def table():
    new = {name: snake(name) for name in SNAKE}
    new.update(JOINED)
    new.update(APART)
    return new


def files(top):
    for folder, dirs, names in os.walk(os.path.join(top, "crates")):
        dirs[:] = sorted(d for d in dirs if d != "out")
        for name in sorted(names):
            if name.endswith((".antt", ".rt")):
                yield os.path.join(folder, name)


def clauses_only(path, text):
    """In a source file, names of clauses and ghost items alone: the lines that have a brace of a clause or import."""
    if path.endswith(".antt"):
        return [(True, text)]
    parts, ghost = [], False
    for line in text.splitlines(keepends=True):
        start = re.match(r"\s*(ghost |requires|ensures)", line)
        ghost = ghost or bool(start)
        parts.append((ghost, line))
        if ghost and line.rstrip().endswith(("}", ";", "};")):
            ghost = False
    return parts


def main():
    new = table()
    for path in files("."):
        with open(path, encoding="utf-8") as f:
            text = f.read()
        out = "".join(
            WORD.sub(lambda m: new.get(m.group(0), m.group(0)), part) if turned else part
            for turned, part in clauses_only(path, text)
        )
        if out != text:
            with open(path, "w", encoding="utf-8") as f:
                f.write(out)


if __name__ == "__main__":
    main()
