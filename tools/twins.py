#!/usr/bin/env python3
"""tools/twins.py [COMMIT]: functions of src/, and structs, whose text is the same once names and numbers are folded: places to look for twins."""
import re
import subprocess
import sys

rev = sys.argv[1] if len(sys.argv) > 1 else "HEAD"


def git(*words):
    return subprocess.run(["git", *words], capture_output=True, text=True, check=True).stdout


def folded(text):
    text = re.sub(r"//.*", "", text)
    text = re.sub(r"(requires|ensures)[^{\n]*\{.*\}\n", "", text)
    text = re.sub(r"\b\d[\d_]*\b", "0", re.sub(r"[A-Za-z_]\w*", "x", text))
    return re.sub(r"[\s,]+", "", text)


seen = {}
for path in git("ls-tree", "-r", "--name-only", rev, "crates").split():
    if "/src/" not in path or not path.endswith(".rt"):
        continue
    text = git("show", f"{rev}:{path}")
    for m in re.finditer(r"^( *)(?:pub )?(?:fn|struct) (\w+).*?^\1\}\n", text, flags=re.M | re.S):
        body = folded(m.group(0))
        if len(body) > 36:
            seen.setdefault(body, []).append(path.split("/")[1] + "::" + m.group(2))
groups = [names for names in seen.values() if len(names) > 1]
print(sum(len(names) for names in groups), "in", len(groups), "groups")
for names in sorted(groups):
    print(" ", ", ".join(names))
