#!/usr/bin/env python3
"""Turns the Proof.antt files of a crate, which answer each goal in turn by the names of an older Rattle, into Invariants.antt and Answers.antt.

usage: python3 tools/convert_proofs.py CRATE    at the top of the repository, once the crates below it are proved

The kit tells each goal's old and new name (`rt check --generated FOLDER --old-names`). An answer `search rules` goes: the check finds it.
Of the others `c.before.before.STEP` becomes `c.STEP`, by the step's new name. What can't be turned is printed.
"""
import json
import os
import re
import subprocess
import sys
import tempfile


def norm(name):
    return name.replace("_", "-")


def chunks(text):
    """The parts of a file: ('use', line), ('note', lines), ('decl', name, signature, rest lines)."""
    out, cur = [], None
    for line in text.split("\n"):
        if line.startswith("use ") or line.startswith("open "):
            out.append(("use", line)); cur = None
        elif line.startswith("--"):
            if out and out[-1][0] == "note" and cur == "note":
                out[-1][1].append(line)
            else:
                out.append(("note", [line]))
            cur = "note"
        elif re.match(r"(?:(?:abbrev|pub|unfoldable) )*\S+ :", line) and not line.startswith(" "):
            m = re.match(r"((?:(?:abbrev|pub|unfoldable) )*)(\S+) :\s*(.*)", line)
            cur = ["decl", m.group(2), m.group(3), [line]]
            out.append(cur)
        elif isinstance(cur, list):
            cur[3].append(line)
        elif line.strip():
            cur = ["decl", None, None, [line]]
            out.append(cur)
    return out


class Fn:
    def __init__(self, data, key=None):
        self.data = data
        self.key = key
        self.places = {p[0]: p for p in data["places"]}
        self.needs = data["needs"]
        self.at = {n[0]: a[0] for n, a in zip(data["needs"], data["asked_at"])}

    def need(self, typ):
        t = norm(typ)
        for old, new in self.needs:
            for pre in ("", "overflow-", "nonzero-", "bounds-", "offset-bounds-", "slice-bounds-"):
                if t == pre + norm(old):
                    return old, new
        for old, new in self.needs:
            if t == norm(new):
                return old, new
        return None

    def has(self, p, fields):
        f = fields[0][: -len("_lem")] if fields[0].endswith("_lem") else fields[0]
        old, new = self.places[p][2]
        if old and norm(f).lower() in (norm(old).lower(), norm(new).lower(), "is" + norm(old).lower()):
            return True
        arm = self.data["arms"][[q[0] for q in self.data["places"]].index(p)]
        if arm and any(norm(o) == norm(f) and fields[1 : 1 + len(sub)] == sub for _, o, sub in arm[2]):
            return True
        return p == "Start" and f in ("args", "requires", "ranges", "well-formed", "well_formed", "requires-0")

    def path(self, place, m, said):
        befores, fields = m.group(1).count(".before"), [f for f in m.group(2).split(".") if f]
        p, chain = place, [place]
        while self.places[chain[-1]][1]:
            chain.append(self.places[chain[-1]][1])
        p = chain[min(befores, len(chain) - 1)]
        if fields:
            # where the steps are counted otherwise now, the step is found by its name, nearest to the old count
            fits = [(abs(i - befores), q) for i, q in enumerate(chain) if self.has(q, fields)]
            if fits:
                p = min(fits)[1]
        if not fields:
            if befores:
                said.append(f"bare {m.group(0)} at {p}")
            return m.group(0) if befores else "c"
        old, new = self.places[p][2]
        f = fields[0]
        if f.endswith("_lem"):
            f = f[: -len("_lem")]
        if f == "well-formed":
            f = fields[0] = "well_formed"
        order = [q[0] for q in self.data["places"]]
        for q in chain[: chain.index(p) + 1][::-1]:
            arm = self.data["arms"][order.index(q)]
            for newf, oldf, sub in sorted(arm[2], key=lambda a: -len(a[2])) if arm else []:
                if norm(oldf) == norm(f) and fields[1 : 1 + len(sub)] == sub:
                    return ".".join(["c", arm[0], newf] + fields[1 + len(sub) :])
        if old and norm(f).lower() in (norm(old).lower(), norm(new).lower(), "is" + norm(old).lower()):
            fields[0] = new
        elif p == "Start" or f in ("type_inv",):
            pass
        else:
            said.append(f"field .{f} of {p} ({old}, {new}): {m.group(0)}")
            return m.group(0)
        callee = self.places[p][3]
        if len(fields) > 2 and fields[1] == "auto" and callee in self.data["params"] and fields[2] in "01":
            k = 2
            while k < len(fields) and fields[k] == "1":
                k += 1
            if k < len(fields) and fields[k] == "0" and k - 2 < len(self.data["params"][callee]):
                fields[2 : k + 1] = [self.data["params"][callee][k - 2]]
        for word, owner in (("ensures", callee), ("requires", self.key)):
            at = fields.index(word) if word in fields[:2] else -1
            names = CLAUSES.get(owner, {}).get(word, []) if owner else []
            if at >= 0 and len(names) > 1:
                k = 0  # several clauses were pairs, nested to the right
                while k < len(names) - 1 and at + 1 + k < len(fields) and fields[at + 1 + k] == "1":
                    k += 1
                if k == len(names) - 1:
                    fields[at + 1 : at + 1 + k] = [names[k]]
                elif at + 1 + k < len(fields) and fields[at + 1 + k] == "0":
                    fields[at + 1 : at + 2 + k] = [names[k]]
        return ".".join(["c"] + fields)


PATH = re.compile(r"(?<![\w.'-])c((?:\.before)*)((?:\.[A-Za-z0-9_][\w₀-₉'-]*)*)")


def by_clause(rest, names):
    """A proof of several clauses, which was a tuple or gave one, as a record of them by name."""
    m = re.match(r"((?:\s*let .* in(?=\s))*)\s*(.*)", rest, re.S)
    lets, depth, at = "", 0, 0
    # the lets are what stands before the last ` in ` outside of parentheses
    text, last = rest, 0
    for i, ch in enumerate(text):
        depth += ch in "([{" 
        depth -= ch in ")]}"
        if depth == 0 and re.match(r"\sin\s", text[i : i + 4]):
            last = i + 4
    lets, body = text[:last], text[last:].strip()
    if body.startswith("record"):
        return rest
    parts, depth, cur = [], 0, ""
    if body.startswith("(") and body.endswith(")"):
        inner = body[1:-1]
        for ch in inner:
            depth += ch in "([{"
            depth -= ch in ")]}"
            if depth < 0:
                break
            if ch == "," and depth == 0:
                parts.append(cur.strip()); cur = ""
            else:
                cur += ch
        if depth >= 0:
            if cur.strip():
                parts.append(cur.strip())
        else:
            parts = []
    if len(parts) == len(names):
        fields = "; ".join(f"{n} = {p}" for n, p in zip(names, parts))
        return f"{lets} record {{ {fields} }}"
    last = len(names) - 1
    fields = "; ".join(f"{n} = every" + ".1" * i + (".0" if i < last else "") for i, n in enumerate(names))
    return f"{lets}\n    let every = {body} in\n    record {{ {fields} }}"


def turn_need(fn, old, new, lines, said):
    name_line = lines[0]
    out = []
    for i, line in enumerate(lines[1:]):
        out.append(line)
    body = "\n".join(out).rstrip()
    m = re.match(r"((?:unfolding [^\n]*\n)*)(\S+)((?: [^=\n]*?)?) =(.*)", body, re.S)
    if not m:
        said.append("no definition: " + body[:80])
        return None
    args = m.group(3).split()
    rest = m.group(4)
    if re.sub(r"\s+", " ", rest).strip() in ("search rules", "_") and not m.group(1):
        return None
    place = fn.at[old]
    args = [a for a in args if a != "κs"]
    aliases = {}
    for a in re.finditer(r"let (\w+) = c((?:\.before)+) in\s*", rest):
        q = place
        for _ in range(a.group(2).count(".before")):
            q = fn.places[q][1]
        aliases[a.group(1)] = q
    rest = re.sub(r"let (\w+) = c((?:\.before)+) in\s*", "", rest)
    rest = PATH.sub(lambda k: fn.path(place, k, said), rest)
    for a, q in aliases.items():
        p = re.compile(r"(?<![\w.'-])" + a + r"((?:\.before)*)((?:\.[A-Za-z0-9_][\w₀-₉'-]*)*)(?![\w'-])")
        rest = p.sub(lambda k: fn.path(q, k, said), rest)
    rest = re.sub(r"\(?\bnot-(?:true|false) _ (c\.(?:if|loop)-not-[\w₀-₉'-]+\.(?:true|false))(?![\w'-])\)?", lambda k: k.group(1) if k.group(0)[0] == "(" and k.group(0)[-1] == ")" or k.group(0)[0] != "(" and k.group(0)[-1] != ")" else k.group(0)[:1].replace("n", "") + k.group(1) + (")" if k.group(0)[-1] == ")" else ""), rest)
    rest = re.sub(r"sym \(length-map (?:[^()\s]+|\([^()]*\)) _\) ∙ c\.well_formed(?:\.\d+)+", "search rules", rest)
    mine = []
    if new.startswith("returns"):
        mine = CLAUSES.get(fn.key, {}).get("ensures", [])
    elif "-requires" in new:
        callee = new.split("-requires")[0]
        keys = [k for k in CLAUSES if callee.split("-")[0] == k.split("::")[-1]]
        mine = CLAUSES[keys[0]]["requires"] if len({tuple(CLAUSES[k]["requires"]) for k in keys}) == 1 else []
    if len(mine) > 1:
        rest = by_clause(rest, mine)
    if "κs" in rest:
        said.append("κs is used")
    return f"pub {new} : goal.{new}\n{m.group(1)}{' '.join([new] + args)} ={rest}"


def turn_loop(fn, kind, loop, lines, said):
    got = [l for l in fn.data["loops"] if norm(l[0][0]) == norm(loop)]
    if not got:
        said.append(f"no loop {loop}: {fn.data['loops']}")
        return "\n".join(lines)
    (old, new), vs = got[0][0], got[0][1]
    body = "\n".join(lines[1:]).rstrip()
    m = re.match(r"((?:unfolding [^\n]*\n)*)(\S+)((?: [^=\n]*?)?) =(.*)", body, re.S)
    args = m.group(3).split()
    rest = m.group(4)
    names, left = {}, list(vs)
    current = [a for a in args if not a.endswith("₀")]
    open_ = []
    for a in current:
        same = [v for v in left if norm(v) == norm(a)]
        if same:
            names[a] = "l." + same[0]
            left.remove(same[0])
        elif a != "_":
            open_.append(a)
    old_left = [a for a in args if a.endswith("₀")]
    if open_:
        said.append(f"variables {open_} taken for {left}: {args} {vs}")
        for a, v in zip(open_, left):
            names[a] = "l." + v
    for a in old_left:
        base = a.rstrip("₀")
        names[a] = "l.initial." + (names[base][2:] if base in names else base)
    tok = re.compile(r"(?<![\w.'-])[A-Za-z_][\w₀-₉'-]*")
    rest = tok.sub(lambda k: names.get(k.group(0), k.group(0)), rest)
    return f"abbrev pub {kind}-{new} : goal.{kind}-{new}\n{m.group(1)}{kind}-{new} l ={rest}"


def clauses():
    """Of each function by its path: the names of its requires and of its ensures."""
    out = {}
    for crate in os.listdir("crates"):
        for f in os.listdir(f"crates/{crate}/src"):
            if not f.endswith(".rt"):
                continue
            owner, cur = None, None
            for line in open(f"crates/{crate}/src/{f}"):
                m = re.match(r"impl(?:<[^>]*>)? (?:\w+ for )?(\w+)", line)
                if m:
                    owner = m.group(1)
                if line.startswith("}"):
                    owner = None if cur is None or owner is None else owner
                m = re.match(r"(\s*)(?:pub )?(?:const )?(?:unsafe )?(?:extern \"C\" )?fn (\w+)", line)
                if m:
                    cur = "::".join([crate] + ([owner] if m.group(1) and owner else []) + [m.group(2)])
                    out[cur] = {"requires": [], "ensures": []}
                m = re.match(r"\s+(requires|ensures)(?: (\w+))? \{", line)
                if m and cur:
                    out[cur][m.group(1)].append(m.group(2))
    return out


CLAUSES = None


def params(crate, name):
    """The parameters of a function by name, where its name is that of one function alone."""
    found = []
    for f in os.listdir(f"crates/{crate}/src"):
        t = re.sub(r"//.*", "", open(f"crates/{crate}/src/{f}").read())
        for m in re.finditer(r"\bfn " + name + r"\s*(?:<[^>]*>)?\(([^)]*)\)", t):
            found.append([re.sub(r"^(?:&'?\w* ?mut |&'\w+ |&|mut )", "", p.split(":")[0].strip()).strip() for p in m.group(1).split(",") if p.strip()])
    return found[0] if len(found) == 1 else []


def turn(crate, path, data, said):
    text = re.sub(r"\.decreases(?![\w'-])", ".measured", open(path).read())
    text = re.sub(r"\.type_size(?![\w'-])", ".size-of", text)
    fn = Fn(data, "::".join([crate] + os.path.relpath(os.path.dirname(path), f"crates/{crate}/proofs").split("/")))
    ps = params(crate, os.path.basename(os.path.dirname(path)))
    text = re.sub(r"\.t(\d)(?![\w'-])", lambda m: "." + ps[int(m.group(1)) - 1] if int(m.group(1)) <= len(ps) else m.group(0), text)
    for v in set(ps) | {v for l in data["loops"] for v in l[1]}:
        if "_" in v:
            text = re.sub(r"\." + norm(v) + r"(?![\w'-])", "." + v, text)
    folder = os.path.dirname(path)
    inside = os.path.relpath(folder, os.path.join("crates", crate, "proofs")).replace("/", ".")
    uses, notes, loops, answers, own = [], [], [], [], []
    for c in chunks(text):
        if c[0] == "use":
            if ".Statement.{statement}" in c[1] or c[1].endswith(".Tie as tie") or "borrow.Author.Rules.{rules}" in c[1]:
                continue
            uses.append(c[1])
        elif c[0] == "note":
            notes.append("\n".join(c[1]))
        else:
            name, typ, lines = c[1], c[2], c[3]
            while lines and not lines[-1].strip():
                lines.pop()
            if typ is None:
                said.append("left: " + lines[0][:100]); own.append("\n".join(lines)); continue
            if "statement M" in typ:
                continue
            m = re.match(r"tie\.(Need|invariant|decreases)-(\S+)", typ)
            if not m:
                own.append("\n".join(lines)); continue
            if m.group(1) == "Need":
                got = fn.need(m.group(2))
                if not got:
                    body = re.sub(r"\s+", " ", "\n".join(lines[1:])).split("=", 1)[-1].strip()
                    if body not in ("search rules", "_"):
                        said.append(f"no goal for {m.group(2)} (settled?): {body[:100]}")
                        own.append("-- GONE " + "\n-- ".join(lines))
                    continue
                t = turn_need(fn, got[0], got[1], lines, said)
                if t:
                    answers.append(t)
            else:
                loops.append(turn_loop(fn, m.group(1), m.group(2), lines, said))
    os.remove(path)
    if any("rules" in t for t in answers + own):
        uses.append("use borrow.Author.Rules.{rules}")
    head = notes[:1] if text.startswith("--") else []
    more = notes[1:] if text.startswith("--") else notes
    if more:
        said.append("comments inside: " + " / ".join(more)[:300])
    if loops:
        with open(os.path.join(folder, "Invariants.antt"), "w") as f:
            f.write("\n".join(head + uses + [f"use Rattle.{crate}.proofs.{inside}.Given as goal"]) + "\n\n" + "\n\n".join(loops) + "\n")
    if answers or own:
        with open(os.path.join(folder, "Answers.antt"), "w") as f:
            f.write("\n".join(head + uses + [f"use Rattle.{crate}.proofs.{inside}.Goals as goal"]) + "\n\n" + "\n\n".join(own + answers) + "\n")
    if not os.listdir(folder):
        os.rmdir(folder)


def main(crate):
    global CLAUSES
    CLAUSES = clauses()
    names = tempfile.mkdtemp()
    out = subprocess.run(["rt", "check", "--generated", names, "--old-names"], cwd=f"crates/{crate}", stdout=subprocess.PIPE, stderr=subprocess.STDOUT, text=True).stdout
    try:
        data = json.load(open(os.path.join(names, "names.json")))
    except OSError:
        print(out[-3000:])
        raise SystemExit(1)
    for folder, dirs, files in os.walk(f"crates/{crate}/proofs"):
        for f in files:
            if f == "Proof.antt":
                path = os.path.join(folder, f)
                key = f"Rattle-{crate}-proofs." + os.path.relpath(folder, f"crates/{crate}/proofs").replace("/", ".") + ".Lts"
                said = []
                if key not in data:
                    said.append("no names: " + key)
                else:
                    turn(crate, path, data[key], said)
                for s in said:
                    print(f"{path}: {s}")


if __name__ == "__main__":
    main(sys.argv[1])
