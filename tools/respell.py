#!/usr/bin/env python3
"""Brings the repository's own names in antt to today's spelling, behind port.py.

usage: python3 tools/respell.py [FOLDER]      the repository's top, or the folder given

    readNumber, bit-ofSet, few-writes, one-longer   ->   read_number, bit-of_set, few_writes, one_longer

Words are in snake case; a dash stays where it joins the names of two functions, as in table-length.
It rewrites specs/, proofs/, src/ and must-fail/ of every crate and lays the crates out. A name whose new spelling
stands for something else already keeps its old one, and is told. Run it once, on what port.py made.
"""

import glob
import os
import re
import subprocess
import sys

WORD = r"[^\s(){}.;,@\"«»\[\]\\]+"
DEFINED = re.compile(r"^\s*(?:(?:abbrev|unfoldable|pub) )*(?:(?:record|data) )?(" + WORD + r")(?: [^=]*)? :(?: |$)")
NO_DEFINITION = ("--", "λ", "let ", "use ", "infix")
CAMEL = re.compile(r"[a-z][a-z0-9]*[A-Z][A-Za-z0-9]*['₀-₉]*")
# functions of the library and of the logic that lemmas of this repository name
LIBRARY = set(
    "length take drop get_or set map append replicate sum cons snoc suc zero add sub mul div mod pow lt le ltb leb eqb eq and or not imp iff cond true false "
    "nat_eq nat_le nat_lt all some min max".split()
)
# words of English, though functions have these names too
PLAIN = set("at or as up to by no is in of on from most reads read asked here best done with way image extent".split())


def read(path):
    with open(path, encoding="utf-8") as it:
        return it.read()


def files(top, *patterns):
    found = [p for each in patterns for p in glob.glob(f"{top}/crates/*/{each}", recursive=True)]
    return sorted(p for p in set(found) if "/out/" not in p)


def defined(path):
    return [m[1] for l in read(path).split("\n") if not l.strip().startswith(NO_DEFINITION) and (m := DEFINED.match(l))]


def snake(part):
    part = re.sub(r"([a-z0-9])([A-Z])", r"\1_\2", part)
    return re.sub(r"([A-Z])([A-Z][a-z])", r"\1_\2", part).lower()


def without_camel(name):
    return "-".join(snake(p) if CAMEL.fullmatch(p) else p for p in name.split("-"))


def joined(name, functions):
    parts = name.split("-")
    out = parts[0]
    for before, part in zip(parts, parts[1:]):
        out += ("-" if before in functions and part in functions else "_") + part
    return out


def main():
    top = sys.argv[1] if len(sys.argv) > 1 else "."
    specs = files(top, "specs/**/*.antt")
    lemmas = files(top, "proofs/**/*.antt")
    own = [p for p in lemmas if os.path.basename(p) not in ("Proof.antt", "Invariants.antt", "Answers.antt")]
    words = {}
    stated = {n for p in specs for n in defined(p)}
    proved = {n for p in own for n in defined(p)}
    fields = {n for p in specs + own for each in re.findall(r"(?m)^ *(?:pub )?record .*\n(?:(?: +.*)?\n)*", read(p)) for n in re.findall(rf"(?m)^ +pub ({WORD}) :", each)}
    tokens = {t for p in specs + lemmas for t in re.findall(r"(?<!\.)(?<![^\s(){}.;,@\"«»\[\]\\])" + WORD, re.sub(r"(?m)^(?:pub )?use [^{\n]*|--.*", "", read(p)))}
    for t in tokens:
        if (t in stated or t in proved or "-" not in t) and without_camel(t) != t:
            words[t] = without_camel(t)
    functions = (LIBRARY | {words.get(n, n) for n in stated if "-" not in n}) - PLAIN
    for n in stated | proved:
        now = words.get(n, n)
        if "-" in now:
            now = now.replace("-", "_") if n in stated else joined(now, functions)
        if now != n:
            words[n] = now
    taken, primed = {}, {}
    # where a lemma would be spelled as a definition, it keeps its dashes
    for n in sorted(list(words), key=lambda n: ("-" in n, n)):
        if words[n] in tokens | set(taken) and "-" in n:
            words[n] = without_camel(n)
            if words[n] == n:
                del words[n]
                continue
        now = words[n]
        if now in proved and now not in taken and now.replace("_", "-") not in tokens | set(taken):
            words[now] = now.replace("_", "-")
            taken[words[now]] = now
            tokens.discard(now)
        if now in tokens and now not in proved:
            # a file's own short name for something else gets a prime where the definition comes to be spelled alike
            for p in specs + lemmas:
                if {n, now} <= set(re.findall(WORD, read(p))) and f" as {now}" in read(p):
                    primed.setdefault(p, {})[now] = now + "'"
                elif {n, now} <= set(re.findall(WORD, read(p))):
                    break
            else:
                tokens.discard(now)
        if now in tokens or now in taken:
            print(f"kept: {n}: {now} is {taken.get(now, 'there')}")
            del words[n]
        else:
            taken[now] = n
    antt = re.compile(WORD)
    for p in specs + lemmas + files(top, "src/**/*.rt", "must-fail/*.edit"):
        text = read(p)

        # what a lemma gave its spelling to stays in files that don't name the lemma
        cited = set(defined(p)) | {n for each in re.findall(r"use \S*\.proofs\.\S*\.\{([^}]*)\}", text) for n in re.findall(WORD, each)} if p in lemmas else set()
        # a source file's own short names for what it imports
        short = {n: snake(n) for n in re.findall(r" as ([a-z]\w*)[,}]", text) if CAMEL.fullmatch(n)} if p.endswith(".rt") else {}
        clash = [n for n in short if re.search(rf"[{{ ]{short[n]}[,}}]", text)]
        if clash:
            print(f"kept in {p}: {clash}")
        short = {n: short[n] for n in short if n not in clash}

        def respelled(found):
            n, behind_dot = found[0], text[found.start() - 1 : found.start()] == "."
            if n in primed.get(p, {}) and not behind_dot:
                return primed[p][n]
            # what stands behind a dot may be a function's module, or a field that a check makes, and a plain word in code a function
            if without_camel(n) == n and "-" not in n:
                is_other = behind_dot or n not in cited
            else:
                is_other = behind_dot and "-" in n and n not in stated | fields
            return n if is_other else words.get(n, short.get(n, n))

        now = antt.sub(respelled, text)
        if now != text:
            with open(p, "w", encoding="utf-8") as it:
                it.write(now)
    for crate in sorted(glob.glob(f"{top}/crates/*/src")):
        subprocess.run(["rt", "fmt"], cwd=os.path.dirname(crate), check=True, stdout=subprocess.DEVNULL)
    print(f"{len(words)} names respelled")
    if "--list" in sys.argv:
        print("\n".join(f"{n}\t{words[n]}" for n in sorted(words)))


if __name__ == "__main__":
    main()
