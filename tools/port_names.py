#!/usr/bin/env python3
"""Brings the repository's own definitions and lemmas to snake case: run once, behind the toolchain's port.py, at the top.

usage: tools/port_names.py           rewrites crates/*/{specs,proofs}/*.antt and the clauses of crates/*/src/*.rt
       tools/port_names.py --map     prints each old name with its new one
Names of types, modules and Rust items keep their spelling. It says where two names fall together: with functions of src/, which keep theirs, and with lemmas, of which `last_block` of modes got its `_lem` by hand.
"""
import re
import subprocess
import sys

WORD = re.compile(r"[^\s(){}\[\],;:.=λ≡∷⊕⊻≤<>+*/%^∙→↔×|\"`◌&]+")
KEEP = {"getDefault"}
# Names that hold an older word of the library, and the prelude's names with a middle dot.
WORDS = {"getD": "get_or", "KE": "_ke", "KM": "_km"}
DOTS = {
    "Iff·and": "Iff-and", "Iff·trans": "Iff-trans", "Bool·beq": "Bool-beq", "eqb·suc-zero": "eqb-suc-zero",
    "List·getD-append": "get_or-append", "List·getD-eq-default": "get_or-eq_default",
    "List·getD-eq_default": "get_or-eq_default",
    "List·Permᴰ·cons": "Permᴰ-cons", "List·Permᴰ·nil": "Permᴰ-nil", "List·Permᴰ·swap": "Permᴰ-swap",
    "List·Permᴰ·trans": "Permᴰ-trans", "List-as-Permᴰ": "Permᴰ",
}

# Lemmas on a definition that would get its name.
LEMMAS = {
    "crates/body/proofs/Only.antt": ["offset_word"],
    "crates/links/proofs/Record.antt": ["text_in", "tag_in"],
    "crates/plain/proofs/Sealed.antt": ["text_in", "tag_in"],
}


def snake(word):
    if word in DOTS:
        return DOTS[word]
    if word in KEEP or "·" in word:
        return word
    return "-".join(part(p) for p in word.split("-"))


def part(p):
    if not re.match(r"[a-z]", p) or not re.search(r"[A-Z]", p):
        return p
    for old, new in WORDS.items():
        p = p.replace(old, new)
    return re.sub(r"(?<=[a-z0-9'₁₂])([A-Z])", lambda m: "_" + m.group(1).lower(), p).lower()


def files():
    said = subprocess.run(["git", "ls-files", "crates/*.antt", "crates/*.rt"], stdout=subprocess.PIPE, text=True, check=True)
    return said.stdout.split()


def main():
    texts = {f: open(f, encoding="utf-8").read() for f in files()}
    for f, lemmas in LEMMAS.items():
        for lemma in lemmas:
            for spelt in (lemma, lemma.replace("_", "-")):
                texts[f] = re.sub(rf"(?<![\w'-]){spelt}(?![\w'-])", lemma + "_lem", texts[f])
    words, defined = set(), set()
    for f, t in texts.items():
        words |= set(WORD.findall(t))
    turned = {w: snake(w) for w in words if snake(w) != w}
    taken = {}
    for old, new in sorted(turned.items()):
        if new in words or new in taken:
            print(f"falls together: {old} and {new}" + (f", as {taken[new]}" if new in taken else ""), file=sys.stderr)
        taken[new] = old
    if "--map" in sys.argv:
        for old, new in sorted(turned.items()):
            print(old, new)
        return
    for f, t in texts.items():
        new = WORD.sub(lambda m: turned.get(m.group(0), m.group(0)), t)
        new = re.sub(r"(?<![\w'-])([A-Za-zᴰ_'-]+) as \1(?=[,}])", r"\1", new)
        open(f, "w", encoding="utf-8").write(new)


if __name__ == "__main__":
    main()
