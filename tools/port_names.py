#!/usr/bin/env python3
"""Spells this repository's own definitions and lemmas as today's Rattle does; run once, at the top, right after the kit's port.py.

usage: python3 tools/port_names.py [--list]

A word of antt is in snake case: what is declared in lower camel case below specs/ or proofs/ gets underscores, wherever it is cited.
A dash joins two names, and a plain word is added with an underscore: a lemma's dash stays where both of its neighbours are names.
What is turned is a whole word of antt's: in .antt files, in clauses and `ghost use` lines of .rt files, in comments, in must-fail edits, and
between backquotes in the papers and the tools. Names of src/, types, modules and quoted text keep their spelling. A name whose new
spelling is a name already, in a file that cites the old one, keeps the old. --list prints the table and changes nothing.
"""
import glob
import re
import sys

WORD = r"[^\s(){}.;,@\"«»\[\]\\`:]+"
DECLARED = re.compile(r"(?m)^ *(?:(?:abbrev|unfoldable|pub|data) +)*(%s)(?: \([^()\n]*\)| \{[^{}\n]*\})* :(?= )" % WORD)
# words that std's lemmas take for names of operators, constructors and literals
NAMES_OF_STD = set(
    "append nil cons zero one two suc add sub mul div mod pow le lt eq ne min max true false length take drop get_or set xor and or not cond map replicate refl leb ltb eqb".split()
)
# plain words, which are no names where a definition or a function is called so too
PLAIN = set("is are of at in to by on as the a an no none all every each example not one two first last same when where here there other own good held told".split())
CAMEL = re.compile(r"[a-z][a-z0-9]*(?:[A-Z][A-Za-z0-9₀-₉']*)+\Z")


def read(path):
    with open(path, encoding="utf-8") as it:
        return it.read()


def snake(part):
    """Lower camel case in snake case; every other spelling stays."""
    if part == "getD":
        return "get_or"
    if not CAMEL.match(part):
        return part
    return re.sub(r"(?<=[a-z0-9])[A-Z]", lambda m: "_" + m[0].lower(), re.sub(r"(?<=[a-z])0f", "0_of", part))


def antt_files():
    return sorted(glob.glob("crates/*/specs/**/*.antt", recursive=True) + glob.glob("crates/*/proofs/**/*.antt", recursive=True))


def code_of(text):
    return re.sub(r"--[^\n]*", "", text)


def table():
    files = antt_files()
    texts = {p: read(p) for p in files}
    rust = {p: read(p) for p in sorted(glob.glob("crates/*/src/**/*.rt", recursive=True))}
    # lemmas and definitions: the files of specs/, and those of proofs/ that are no function's
    own = [p for p in files if not re.search(r"/(Proof|Answers|Invariants)\.antt$", p)]
    declared = {m[1] for p in own for m in DECLARED.finditer(code_of(texts[p]))}
    inner = {m[1] for p in files for m in DECLARED.finditer(code_of(texts[p]))}
    functions = {m for t in rust.values() for m in re.findall(r"\bfn (\w+)", t)}
    camel = {n for n in inner if CAMEL.match(n)}
    names = ({snake(n) for n in declared if "-" not in n} | functions | NAMES_OF_STD) - PLAIN

    def turned(name):
        parts = [snake(p) for p in name.split("-")]
        if name not in declared:
            return "-".join(parts)
        out, joins = parts[0], True
        for before, after in zip(parts, parts[1:]):
            joins = joins and before in names and after in names
            out += ("-" if joins else "_") + after
        return out

    rows = {n: turned(n) for n in sorted(declared | camel) if turned(n) != n}
    # the words of a file that a new name could meet: those of its terms, and the parameters that a clause names
    words = {p: terms_of(t) for p, t in texts.items()}
    words.update({p: set(re.findall(r"[(,]\s*(?:mut )?(\w+): ", t)) for p, t in rust.items()})
    cited = {p: set(re.findall(WORD, code_of(t))) for p, t in {**texts, **rust}.items()}
    meets = {n for n, new in rows.items() if any(n in cited[p] and new in words[p] for p in words)}
    # where two would be one the lemma keeps its dashes
    twice = {}
    for n, new in rows.items():
        twice.setdefault(new, []).append(n)
    together = {n for all in twice.values() if len(all) > 1 for n in all if "-" in n or sum("-" not in o for o in all) > 1}
    kept = meets | together
    return {n: new for n, new in rows.items() if n not in kept}, {n: rows[n] for n in kept}


def terms_of(text):
    """The words that stand alone in a file's terms: no path of a `use` line, and no field."""
    terms = re.sub(r"(?m)^(?:pub )?use [^{\n]*", "", code_of(text))
    return set(re.findall(r"(?<![\w)\]₀-₉'-]\.)(?<![^\s(){};,@\[\]])" + WORD, terms))


def turn_code(text, rows, comment="--"):
    """Every word of antt's in code and comment; a dashed word of a comment only where it stands between backquotes or after a file's name."""

    def comment_turned(said):
        def one(m):
            word = m[0]
            if word not in rows:
                return word
            if CAMEL.match(word) or said[m.start() - 1 : m.start()] == "`" or re.search(r"Laws,? [^.]*\Z", said[: m.start()]):
                return rows[word]
            return word

        return re.sub(WORD, one, said)

    out = []
    for line in text.split("\n"):
        at = line.find(comment) if comment == "//" else next((m.start() for m in re.finditer(r"(?<![^\s])--", line)), -1)
        code, said = (line, "") if at < 0 else (line[:at], line[at:])
        pieces = re.split(r'("(?:[^"\\]|\\.)*")', code)
        for k in range(0, len(pieces), 2):
            pieces[k] = re.sub(WORD, lambda m: rows.get(m[0], m[0]), pieces[k])
        out.append("".join(pieces) + comment_turned(said))
    return "\n".join(out)


def turn_paper(text, rows):
    return re.sub(r"`[^`\n]*`", lambda span: re.sub(WORD, lambda m: rows.get(m[0], m[0]), span[0]), text)


def main():
    rows, kept = table()
    if sys.argv[1:] == ["--list"]:
        for n, new in rows.items():
            print(f"{n}\t{new}")
        for n, new in sorted(kept.items()):
            print(f"kept: {n}\t{new}")
        return
    changed = {}
    for p in antt_files():
        changed[p] = turn_code(read(p), rows)
    for p in sorted(glob.glob("crates/*/src/**/*.rt", recursive=True)):
        changed[p] = turn_code(read(p), rows, "//")
    for p in sorted(glob.glob("crates/*/must-fail/*.edit")):
        changed[p] = turn_code(read(p), rows, "//")
    for p in sorted(glob.glob("docs/**/*.md", recursive=True)) + ["README.md", "CONTRIBUTING.md"]:
        if not re.search(r"docs/landings/\d", p):
            changed[p] = turn_paper(read(p), rows)
    for p, text in changed.items():
        if text != read(p):
            with open(p, "w", encoding="utf-8") as it:
                it.write(text)
    print(f"{len(rows)} names turned, {len(kept)} kept: {', '.join(sorted(kept))}")


if __name__ == "__main__":
    main()
