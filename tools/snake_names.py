#!/usr/bin/env python3
"""Spells the repository's own definitions, lemmas, fields and variables in snake case, and types in camel case.

Run once at the top of a checkout, after the toolchain's own script. It reads the specs/ and proofs/ of every crate
to find the names that the repository declares, and rewrites these names there and in the contracts of src/.
Names of the library, of generated goals and steps, of functions, strings and comments stay as they are.
A dash stays where it joins the names of two functions, as in `length-overwrite`.
"""
import glob
import re
import sys

# names whose dash joins the names of two functions
JOINED = {
    "length-overwrite": "length-overwrite",
    "length-paired": "length-paired",
    "length-pieces": "length-pieces",
    "pair-bytes-append": "pair_bytes-append",
    "nth-paired": "slice_get-paired",
}
WORD = r"[^\s(){}\[\];,.«»∷λ]+"
DECLARED = re.compile(r"^\s*(?:(?:abbrev|unfoldable|data|record|pub)\s+)*(" + WORD + r")(?:\s+[({].*)?\s+:\s")
BOUND = re.compile(r"[({]([^(){}:]+)\s:\s")
EQUATION = re.compile(r"\blet\s+(" + WORD + r")\s*(?::|=)")
IMPORT = re.compile(r"^\s*(?:pub )?use\s+(?:Rattle\.std|Prim|native|specs|denote|lib)\b[^{]*\{([^}]*)\}")
GOAL = re.compile(r"^\s*(?:abbrev |pub )*(" + WORD + r")\s+:\s+.*\bgoal\.\1\b")


def antt_files():
    return sorted(glob.glob("crates/*/specs/*.antt") + glob.glob("crates/*/proofs/**/*.antt", recursive=True))


def own_names(files):
    """The names with a dash that the repository declares, but for those of goals and of the library."""
    own, goals, library = set(), set(), set()
    for path in files:
        for line in open(path, encoding="utf-8"):
            m = IMPORT.match(line)
            if m:
                library |= {n.strip() for part in m.group(1).split(",") for n in part.split(" as ")}
                continue
            if line.startswith(("use ", "--", "pub use ", "pub mod ", "mod ")):
                continue
            m = GOAL.match(line)
            if m:
                goals.add(m.group(1))
            elif DECLARED.match(line):
                own.add(DECLARED.match(line).group(1))
            for m in BOUND.finditer(line):
                own |= set(m.group(1).split())
            for m in EQUATION.finditer(line):
                own.add(m.group(1))
    return {n for n in own - goals - library if re.fullmatch(r"[A-Za-z][\w'-]*-[\w'-]+", n)}


def spelled(name):
    if name in JOINED:
        return JOINED[name]
    if name[0].isupper():
        return "".join(part[0].upper() + part[1:] for part in name.split("-"))
    return name.replace("-", "_")


def rewrite(text, names, comment):
    """The text with the names spelled anew, outside strings and comments."""
    piece = re.compile(r'"(?:[^"\\]|\\.)*"|' + comment + r"[^\n]*|" + WORD)
    return piece.sub(lambda m: names.get(m.group(0), m.group(0)), text)


def unquoted(text):
    """Quotes fall where a name needs none."""
    reserved = {"data", "record", "open", "ruleset"}
    return re.sub(r"«([a-z][a-z0-9_]*)»", lambda m: m.group(0) if m.group(1) in reserved else m.group(1), text)


def save(path, text):
    if open(path, encoding="utf-8").read() != text:
        open(path, "w", encoding="utf-8").write(text)


def main():
    files = antt_files()
    names = {n: spelled(n) for n in own_names(files)}
    names["is-better"] = "is_better"
    seen = {}
    for old, new in sorted(names.items()):
        if new in seen:
            sys.exit(f"{old} and {seen[new]} would both be {new}")
        seen[new] = old
    for path in files:
        text = open(path, encoding="utf-8").read()
        for word in sorted(set(re.findall(WORD, re.sub(r"--[^\n]*", "", text)))):
            if word in seen and seen[word] in re.findall(WORD, text) and word != seen[word]:
                print(f"look: {path} had {word} beside {seen[word]}")
        save(path, rewrite(text, names, "--"))
    for path in sorted(glob.glob("crates/*/src/**/*.rt", recursive=True)):
        text = open(path, encoding="utf-8").read()
        text = re.sub(r"«(" + WORD + r")»", lambda m: "«" + names.get(m.group(1), m.group(1)) + "»", text)
        lines = []
        for line in unquoted(text).split("\n"):
            if line.lstrip().startswith(("ghost ", "requires ", "ensures ")) or "{" in line and ("ghost " in line or "ensures" in line or "result" in line):
                line = rewrite(line, names, "//")
            lines.append(line)
        save(path, "\n".join(lines))
    for old, new in sorted(names.items()):
        print(f"{old} -> {new}")


if __name__ == "__main__":
    main()
