#!/usr/bin/env python3
"""Respells the repository's own definitions and lemmas as today's Rattle has them: words in snake case, facts in upper camel case.

usage: python3 tools/spelling.py        at the top of the repository, once, after the kit's own port script

It gathers each name with a dash that specs/ and proofs/ declare, and writes it with underscores wherever it stands in crates/, README.md and docs/;
the facts of FACTS get the name of a type. Names that the kit declares, names that the check makes (goals, steps) and everything in src/ but clauses,
imports and comments keep their spelling. It stops where two names would fall together.
"""
import glob
import os
import re
import sys

# Facts that were spelled as words, by the file that declares them.
FACTS = {
    "crates/accepted/proofs/Refused.antt": {"proper": "Proper"},
    "crates/theorems/proofs/Acceptance.antt": {"symbol-right": "SymbolRight", "symbols-right": "SymbolsRight", "words_right": "WordsRight"},
    "crates/theorems/proofs/Holding.antt": {"holds": "HoldsTerm", "holds-strict": "HoldsStrict", "holds-waiting": "HoldsWaiting", "stands": "Stands"},
    "crates/theorems/proofs/Progress.antt": {"closed": "ClosedSorted", "closeds": "ClosedsSorted", "fine": "Fine", "row_fine": "RowFine"},
    "crates/theorems/proofs/Sorts.antt": {
        "of-sort": "OfSort",
        "of-sorts": "OfSorts",
        "constant-sorted": "ConstantSorted",
        "sorted": "TermSorted",
        "row-sorted": "RowSorted",
        "argument-sorted": "ArgumentSorted",
        "frame-sorted": "FrameSorted",
        "chain-sorted": "ChainSorted",
    },
}
# What the check names itself inside a function's proof, beside goals: these stay.
WORD = r"[^\s(){}\[\],;.:\"`⟨⟩|]+"
HEAD = re.compile(r"^\s*(?:(?:pub|unfoldable|abbrev|data|record|infix\w*)\s+)*((?:" + WORD + r"\s+)*?" + WORD + r")\s*(?:[({][^)}]*[)}]\s*)*:\s")
KEYWORDS = {"pub", "unfoldable", "abbrev", "data", "record", "where", "let", "in"}


def declared(text):
    found = []
    for line in text.split("\n"):
        bare = line.strip()
        if bare.startswith("--") or bare.startswith("use "):
            continue
        head = HEAD.match(line)
        if head:
            found += [w for w in head.group(1).split() if w not in KEYWORDS and "=" not in w and "λ" not in w]
    return found


def read(path):
    with open(path, encoding="utf-8") as f:
        return f.read()


def snake(name):
    if name[0].isupper():
        return "".join(part[0].upper() + part[1:] for part in name.split("-"))
    return name.replace("-", "_")


def from_kit(text):
    """Names that a file imports from elsewhere than this repository."""
    names = set()
    own = set(os.listdir("crates"))
    for line in re.findall(r"use ([^\s;]+\.)\{([^}]*)\}", text):
        parts = line[0].strip(".").split(".")
        if parts[0] == "Rattle" and parts[1] in own:
            continue
        for item in line[1].split(","):
            names.add(item.strip().split(" as ")[-1].strip())
    return names


def main():
    files = [f for f in glob.glob("crates/**/*.antt", recursive=True) if "/out/" not in f]
    texts = {f: read(f) for f in files}
    pages = [f for f in files if os.path.basename(f) not in ("Proof.antt", "Answers.antt", "Invariants.antt")]
    names = set()
    for f in pages:
        names |= {n for n in declared(texts[f]) if "-" in n.strip("◌")}
    for f in files:
        if f not in pages:
            goals = set(re.findall(r"^(?:pub )?(\S+) : (?:tie|goal)\.", texts[f], re.M))
            names |= {n for n in declared(texts[f]) if "-" in n.strip("◌") and n not in goals}
    names = {n for n in names if re.match(r"^◌?[A-Za-z][\w'-]*◌?$", n)}
    table = {n: snake(n) for n in names}
    taken = set()
    for f in files:
        taken |= {n for n in declared(texts[f]) if "-" not in n}
    for old, new in sorted(table.items()):
        if new in taken:
            print(f"look: {old} falls together with {new}")
    for old, new in list(table.items()):
        if old.startswith("◌") or old.endswith("◌"):
            table[old.strip("◌")] = new.strip("◌")

    def turn(text, keep, extra, only_words=None):
        def word(m):
            w = m.group(0)
            if w in keep:
                return w
            if w in extra:
                return extra[w]
            return table.get(w, w)

        return re.sub(r"◌?[A-Za-z][\w'◌]*(?:-[\w'◌]+)*", word, text)

    facts_in = {}
    for home, words in FACTS.items():
        parts = home.split("/")
        path = f"Rattle.{parts[1]}.{parts[2]}.{parts[3][:-5]}"
        for f in files:
            if f == home:
                facts_in.setdefault(f, {}).update(words)
            else:
                for block in re.findall(r"use " + re.escape(path) + r"\.\{([^}]*)\}", texts[f]):
                    items = {i.strip() for i in block.split(",")}
                    facts_in.setdefault(f, {}).update({k: v for k, v in words.items() if k in items})
    changed = 0
    for f in files:
        kit = from_kit(texts[f])
        clash = kit & set(table)
        if clash:
            print(f"kept: {f}: {' '.join(sorted(clash))}")
        new = turn(texts[f], kit, facts_in.get(f, {}))
        if new != texts[f]:
            changed += 1
            with open(f, "w", encoding="utf-8") as out:
                out.write(new)
    for f in glob.glob("crates/*/src/*.rt"):
        text = read(f)
        lines = text.split("\n")
        kit = from_kit(text)
        depth = 0
        out = []
        for line in lines:
            code, mark, comment = line.partition("//")
            ghost = re.match(r"\s*(?:pub )?(ghost |requires|ensures)", line) or depth > 0
            if ghost:
                line = turn(line, kit, {})
                depth += line.count("{") - line.count("}")
                depth = max(depth, 0)
                if depth and not line.strip():
                    depth = 0
            elif mark and '"' not in code:
                line = code + mark + re.sub(r"`[^`]*`", lambda m: turn(m.group(0), set(), {}), comment)
            out.append(line)
        new = "\n".join(out)
        if new != text:
            changed += 1
            with open(f, "w", encoding="utf-8") as o:
                o.write(new)
    for f in glob.glob("crates/*/must-fail/*.edit"):
        text = read(f)
        new = turn(text, set(), {}) if "file: specs" in text or "file: proofs" in text else text
        if new != text:
            changed += 1
            with open(f, "w", encoding="utf-8") as o:
                o.write(new)
    for f in ["README.md"] + glob.glob("docs/**/*.md", recursive=True) + glob.glob("examples/*.md") + glob.glob("tests/**/*.md", recursive=True):
        text = read(f)
        new = re.sub(r"`[^`\n]*`", lambda m: turn(m.group(0), set(), {}), text)
        if new != text:
            changed += 1
            with open(f, "w", encoding="utf-8") as o:
                o.write(new)
    print(f"{len(table)} names, {changed} files")


main()
