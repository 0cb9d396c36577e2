#!/usr/bin/env python3
"""Spells this repository's own definitions and lemmas in snake case, as Rattle's guides ask: chainReply as chain_reply, add-cons as add_cons.

usage: tools/spell_names.py        at the top of the repository, once, right after port.py

Own is what a file of specs/ or a lemma file of proofs/ declares or binds, and no file imports from a library. Types, functions of src/,
labels that Rattle makes and comments outside code stay. Where two names would fall together, the lemma gets _lem. A second run changes
nothing.
"""

import os
import re

WORD = r"[^\s(){}.;,@\"«»\[\]]+"
DECLARED = re.compile(rf"^\s*(?:(?:abbrev|unfoldable|pub|data|record|infix[lr]?|\d+)\s+)*({WORD})\s*(?:\{{[^}}]*\}}\s*|\([^)]*\)\s*)*:\s")
BOUND = re.compile(rf"[({{]((?:{WORD} )+):")
LET = re.compile(rf"\blet ({WORD})")
USE = re.compile(r"^(?:ghost )?use ([\w.'-]+?)\.\{([^}]*)\}", re.M)
TOKEN = re.compile(rf"--[^\n]*|\"[^\"\n]*\"|{WORD}|[\s\S]")
CODE = re.compile(r"`[^`\n]*`")
CLAUSE = re.compile(r"(?:requires|ensures)\s*\*?\s*(?:\w+\s*)?\{|ghost use [^;]*;|ghost \w*\s*:?\s*\{")


def texts(kind):
    for folder, dirs, files in os.walk("crates"):
        dirs[:] = sorted(d for d in dirs if d != "out")
        for name in sorted(files):
            if name.endswith(kind):
                yield os.path.join(folder, name)


def read(path):
    with open(path, encoding="utf-8") as file:
        return file.read()


def is_lemma_file(path):
    return "/specs/" in path or re.search(r"/proofs/[^/]+\.antt$", path) is not None


def is_own_module(module, crates):
    steps = module.split(".")
    return steps[0] == "Rattle" and steps[1] in crates and "declared" not in steps and steps[-1] not in ("Statement", "Tie", "Goals", "Given")


def is_old(name):
    return "-" in name.strip("-") and re.fullmatch(r"[\w'′-]+", name) or re.fullmatch(r"[a-z][\w'-]*[a-z0-9][A-Z][\w'-]*", name)


def snake(name):
    return re.sub(r"(?<=[a-z0-9])[A-Z]", lambda m: "_" + m[0].lower(), name).replace("-", "_")


def own_names(crates):
    declared, libraries = set(), {}
    for path in texts(".antt"):
        text = read(path)
        libraries[path] = {
            word.split(" as ")[0].strip()
            for module, names in USE.findall(text)
            if not is_own_module(module, crates)
            for word in names.replace("\n", " ").split(",")
        }
        if is_lemma_file(path):
            lines = [line for line in text.splitlines() if not line.lstrip().startswith("--")]
            declared |= {m[1] for m in map(DECLARED.match, lines) if m}
            code = "\n".join(lines)
            for found in BOUND.findall(code):
                declared |= set(found.split())
            declared |= set(LET.findall(code))
            unqualified = set(re.findall(rf"(?<![^\s(){{}},;]){WORD}", code)) - libraries[path]
            declared |= {name for name in unqualified if "-" in name and re.fullmatch(r"[A-Za-z][\w'-]*", name)}
    return declared, libraries


def table(declared):
    renamed = {name: snake(name) for name in declared if is_old(name)}
    taken = {}
    for name in sorted(renamed, key=lambda n: ("-" in n, n)):
        if renamed[name] in taken or renamed[name] in declared:
            if "-" in name:
                renamed[name] += "_lem"
            else:
                renamed[renamed[name]] = renamed[name] + "_lem"
        taken[renamed[name]] = name
    return renamed


def turned(text, names, inside=lambda at: True, labels=()):
    out, before, qualifier = [], "", ""
    for match in TOKEN.finditer(text):
        word = match[0]
        if word.startswith("--"):
            word = CODE.sub(lambda m: turned(m[0], names), word)
        elif word in names and inside(match.start()) and not (before == "." and qualifier in ("Nat", *labels)):
            word = names[word]
        if word != ".":
            qualifier = match[0]
        before = match[0]
        out.append(word)
    return "".join(out)


def clauses(text):
    spans = []
    for match in CLAUSE.finditer(text):
        end = match.end()
        if not match[0].endswith(";"):
            depth = 1
            while depth:
                depth += {"{": 1, "}": -1}.get(text[end], 0)
                end += 1
        spans.append((match.start(), end))
    return spans


def main():
    crates = set(os.listdir("crates"))
    declared, libraries = own_names(crates)
    renamed = table(declared)
    for path in list(texts(".antt")) + list(texts(".rt")):
        text = read(path)
        names = {old: new for old, new in renamed.items() if old not in libraries.get(path, ())}
        if path.endswith(".rt"):
            spans = clauses(text)
            new = turned(text.replace("//", "--"), names, lambda at: any(a <= at < b for a, b in spans)).replace("--", "//")
        else:
            if not is_lemma_file(path):
                used = {word.strip() for _, words in USE.findall(text) for word in words.split(",")}
                names = {old: new for old, new in names.items() if is_old(old) or old in used}
            new = turned(text, names, labels=() if is_lemma_file(path) else ("c", "goal", "l"))
            words = set(TOKEN.findall(text))
            for name in sorted(words & {names[old] for old in names if old in words}):
                print(f"look: {path}: {name} stands there already")
        if new != text:
            with open(path, "w", encoding="utf-8") as file:
                file.write(new)
    renamed = {old: new for old, new in renamed.items() if is_old(old)}
    for folder, dirs, files in os.walk("crates"):
        if os.path.basename(folder) == "must-fail":
            for name in sorted(files):
                path = os.path.join(folder, name)
                text = read(path)
                new = "".join(turned(line, renamed) if line.startswith(("old:", "new:")) else line for line in text.splitlines(keepends=True))
                if new != text:
                    with open(path, "w", encoding="utf-8") as file:
                        file.write(new)


if __name__ == "__main__":
    main()
