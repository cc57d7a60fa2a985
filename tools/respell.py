#!/usr/bin/env python3
"""Brings the repository's own definitions and lemmas to today's spelling: words in snake case.

usage: python3 tools/respell.py        at the top of the repository, once, right after the kit's port.py

port.py respells what it knows. Left to this script, in specs/, proofs/ and in the clauses and `ghost use` lines of src/:
- a word in camel case with a small first letter gets snake case (levelOf, level_of); types, modules and facts keep their capitals;
- a definition or field of specs/ joins its words by `_` (below-sum, below_sum), unless something else has that name already
  (total-ms, a fact of the field total_ms); a lemma of proofs/ keeps its dashes;
- where two names would fall together, one of them gets another end (OTHERS, LEMMAS).
Code, strings and paths of files stay as they are; of a comment only what stands between back quotes changes.
"""
import os
import re

IDENT = re.compile(r"(?<![\w'])[A-Za-z_][\w'ℕℤ₀-₉-]*")
CAMEL = re.compile(r"^[a-z][a-z0-9]*(?:[A-Z][a-z0-9]*)+['₀-₉]*$")
DEFINED = re.compile(r"^ *(?:(?:unfoldable|abbrev|pub) )*([A-Za-z][\w'ℕ-]*) :", re.M)

# A definition whose name in snake case is also that of a parameter of src/, which would hide it in a clause.
OTHERS = {"rampWatts": "ramp_watts_of"}

# A lemma, or a field that states a fact, whose name is that of a definition in snake case: its name gets `_lem`, in these crates.
LEMMAS = {
    "no-block": ["form/specs", "form/proofs/Laws.antt", "codec/proofs"],
    "no_step": ["form/specs", "form/proofs/Laws.antt", "codec/proofs"],
    "body_bytes": ["codec/proofs/ReadFile.antt"],
    "in_order": ["blocks/proofs/Question7.antt"],
    "no_power": ["frame_records/specs", "frame_records/proofs", "machine/specs/Samples.antt", "machine/proofs/Samples.antt"],
    "not_extended": ["bench_sheet/specs", "bench_sheet/proofs"],
    "over_by": ["rounds/proofs/Parts.antt"],
    "read_answer": ["machine/proofs/Calls.antt"],
    "read_back": ["history/proofs/RoundTrip.antt", "history/proofs/Written.antt", "sheet/proofs/RoundTrip.antt"],
    "size_ok": ["sheet/proofs/RoundTrip.antt"],
    "step_is": ["form/proofs/Laws.antt"],
    "step_ok": ["codec/proofs/ReadBody.antt"],
    "steps_next": ["vectors/proofs"],
    "sums_at": ["one_reading/proofs/TestSums.antt"],
    "test_at": ["one_reading/proofs/TestSums.antt"],
    "word_after": ["compare_cut/proofs", "compare_places/proofs", "compare_player/proofs", "compare_records/proofs"],
}


def snake(word):
    return re.sub(r"[A-Z]", lambda m: "_" + m.group(0).lower(), word)


def code_and_comment(line, mark):
    at = line.find(mark)
    return (line, "") if at < 0 else (line[:at], line[at:])


def respelled(word, path, dashed):
    for lemma, places in LEMMAS.items():
        if word == lemma and any(path.startswith("crates/" + p) for p in places):
            return word.replace("-", "_") + "_lem"
    if word in OTHERS:
        return OTHERS[word]
    parts = [snake(p) if CAMEL.match(p) else p for p in word.split("-")]
    return ("_" if word in dashed else "-").join(parts)


def quoted(comment, path, dashed):
    """A comment, with the names between its back quotes respelled."""
    one = lambda m: IDENT.sub(lambda w: respelled(w.group(0), path, dashed), m.group(0))
    return re.sub(r"`[^`]*`", one, comment)


def antt(text, path, dashed):
    lines = []
    for line in text.split("\n"):
        code, comment = code_and_comment(line, "--")
        lines.append(IDENT.sub(lambda m: respelled(m.group(0), path, dashed), code) + quoted(comment, path, dashed))
    return "\n".join(lines)


def clauses(text, path, dashed):
    """The text of a .rt file, with the words of its clauses and `ghost use` lines respelled."""
    out, depth, inside = [], 0, False
    for line in text.split("\n"):
        code, comment = code_and_comment(line, "//")
        begins = re.match(r"\s*(ghost use|requires\b|ensures\b|requires\*|ensures\*|ghost\b|pub ghost\b)", code)
        if begins or inside:
            code = IDENT.sub(lambda m: respelled(m.group(0), path, dashed), code)
            depth = (0 if not inside else depth) + code.count("{") - code.count("}")
            inside = depth > 0
        out.append(code + quoted(comment, path, dashed))
    return "\n".join(out)


def main():
    files = []
    for folder, dirs, names in os.walk("crates"):
        dirs[:] = sorted(d for d in dirs if d != "out")
        files += [os.path.join(folder, n) for n in sorted(names) if n.endswith((".antt", ".rt"))]
    texts = {p: open(p, encoding="utf-8").read() for p in files}
    dashed = set()
    for p, t in texts.items():
        if "/specs/" in p:
            dashed |= {w for w in DEFINED.findall(t) if "-" in w}
    used = {w for p, t in texts.items() for w in IDENT.findall(re.sub("--.*" if p.endswith(".antt") else "//.*", "", t))}
    used |= {snake(w) for w in used if CAMEL.match(w)}
    dashed = {w for w in dashed if w.replace("-", "_") not in used}
    for p, t in texts.items():
        new = antt(t, p, dashed) if p.endswith(".antt") else clauses(t, p, dashed)
        if new != t:
            with open(p, "w", encoding="utf-8") as f:
                f.write(new)


if __name__ == "__main__":
    main()
