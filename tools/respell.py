#!/usr/bin/env python3
"""Respells this repository's own definitions, lemmas, fields and constructors: words in snake case, types and modules in camel case.

usage: python3 tools/respell.py        at the top of the repository, once, right after port.py

port.py respells the names of Rattle's library and leaves most of the repository's own. This script turns, in crates/ and in the pages,
  - a word in camel case, as `moneyOf`, into snake case, `money_of`; each such word here is the repository's own;
  - a lemma's, a field's or a constructor's dashes, as `account-stays`, into underscores, `account_stays`. A name that a file imports from
    a library keeps its spelling there, and a function's proof keeps the names that Rattle makes.
Where a lemma then falls together with a definition, the lemma gets `_lem`: the line COLLISIONS names each.
It gives the module `specs/Contracts.antt` of book another name, since Rattle makes a module `specs.contracts`.
"""

import collections
import os
import re
import subprocess
import sys

USE = re.compile(r"(?m)^(?:pub )?(?:ghost )?use\s+([^\s{;]+)\.\{([^}]*)\}")
DECLARED = re.compile(r"(?m)^[ \t]*(?:abbrev |unfoldable |pub |record |data )*((?:[^\s(){}:;,]+ )*[^\s(){}:;,]+)(?:\s*[({][^)}]*[)}])*\s*:\s")
TOKEN = re.compile(r"[^\s(){}\[\].,;:`\"]+")
CAMEL = re.compile(r"(?<![\w'-])[a-z][a-z0-9]*(?:[A-Z][a-z0-9]*)+'*(?![\w-])")
MODULES = [("book", "Contracts", "ContractRows")]


def snake(word):
    return re.sub(r"(?<=[a-z0-9])[A-Z]", lambda m: "_" + m.group(0).lower(), re.sub(r"(?<=[A-Z])[A-Z]", lambda m: "_" + m.group(0).lower(), word))


def files(root):
    for folder, dirs, names in os.walk(os.path.join(root, "crates")):
        dirs[:] = sorted(d for d in dirs if d != "out")
        for name in sorted(names):
            if name.endswith((".antt", ".rt")):
                yield os.path.join(folder, name)


def bare(text):
    return re.sub(r"--.*", "", text)


def imports(text, own):
    """The names that a file imports: from the repository's crates, and from elsewhere."""
    ours, theirs = set(), set()
    for m in USE.finditer(text):
        parts = m.group(1).split(".")
        to = ours if parts[0] == "Rattle" and len(parts) > 1 and parts[1] in own else theirs
        to.update(n.strip().split(" as ")[-1] for n in m.group(2).split(",") if n.strip())
    return ours, theirs


def main():
    root = os.getcwd()
    own = set(os.listdir(os.path.join(root, "crates")))
    texts = {p: open(p, encoding="utf-8").read() for p in files(root)}
    names, local = set(), {}
    for p, t in texts.items():
        if p.endswith(".antt") and os.path.basename(p) != "Proof.antt":
            local[p] = {n for m in DECLARED.finditer(bare(t)) for n in m.group(1).split()}
            names |= local[p]
    plain = {n for n in names if "-" not in n}
    taken = {snake(n) for n in plain}
    turned = {n: n.replace("-", "_") for n in names if re.search(r"[^\W\d]-|-[^\W\d]", n) and not n.startswith(("*", "+", "-", "≤"))}
    fields = {"next-book", "prices-in", "traded-in"}
    collisions = {}
    for n in sorted(turned):
        if turned[n] in taken and n not in fields:
            turned[n] += "_lem"
            collisions[n] = turned[n]
    for n in sorted(plain):
        if snake(n) != n and snake(n) in plain:
            turned[snake(n)] = snake(n) + "_lem"
            collisions[snake(n)] = turned[snake(n)]
    # A name without dashes that gets `_lem` is turned only where it is declared or imported from the module that declares it.
    for p, t in texts.items():
        ours, theirs = imports(t, own)
        proof = os.path.basename(p) == "Proof.antt"
        here = (ours if proof else ours | local.get(p, set()) | {n for n in turned if "-" in n}) - theirs

        def one(m):
            w = m.group(0)
            return turned[w] if w in turned and w in here and not w.startswith("--") else w

        if p.endswith(".antt"):
            t = "\n".join(TOKEN.sub(one, code) + dash + note for code, dash, note in (line.partition("--") for line in t.split("\n")))
        t = CAMEL.sub(lambda m: snake(m.group(0)), t)
        for crate, old, new in MODULES:
            t = re.sub(rf"\bRattle\.{crate}\.specs\.{old}\b", f"Rattle.{crate}.specs.{new}", t)
            if p.endswith(f"crates/{crate}/specs/Lib.antt"):
                t = re.sub(rf"(?m)^pub mod {old}$", f"pub mod {new}", t)
        with open(p, "w", encoding="utf-8") as f:
            f.write(t)
    for crate, old, new in MODULES:
        subprocess.run(["git", "mv", f"crates/{crate}/specs/{old}.antt", f"crates/{crate}/specs/{new}.antt"], cwd=root, check=True)
    pages = [os.path.join(root, "README.md")] + [os.path.join(root, "docs", n) for n in sorted(os.listdir(os.path.join(root, "docs"))) if n.endswith(".md")]
    for p in pages:
        with open(p, encoding="utf-8") as f:
            t = f.read()
        t = re.sub(r"`[^`\n]+`", lambda m: CAMEL.sub(lambda c: snake(c.group(0)) if c.group(0) in plain else c.group(0), TOKEN.sub(lambda w: turned.get(w.group(0), w.group(0)) if "-" in w.group(0) else w.group(0), m.group(0))), t)
        with open(p, "w", encoding="utf-8") as f:
            f.write(t)
    print("COLLISIONS", ", ".join(f"{a} -> {b}" for a, b in collisions.items()))
    print(f"{len(turned)} names with dashes, {sum(snake(n) != n for n in plain)} in camel case")


if __name__ == "__main__":
    sys.exit(main())
