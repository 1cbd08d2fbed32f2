#!/usr/bin/env python3
"""Brings the repository's own definitions, lemmas and record fields to snake case: isData, on-sheet and ends-first become is_data, on_sheet and ends_first.

usage: tools/snake_names.py        at the top, once, right after the kit's port.py

Types and modules keep their capitals. A name that a file imports from the kit stays in that file, and so do the names of functions, of exported
C symbols, and what stands in strings and comments of the sources. Where a source has a parameter of a definition's new name, the
definition is imported there with an apostrophe, as `neighbour as neighbour'` was before. Prints each name that falls together with another.
"""
import collections
import glob
import os
import re
import sys

TOKEN = re.compile(r"[^\s(){}.;,@\"«»\[\]\\]+")
STATED = re.compile(r"^ *(?:abbrev |unfoldable )*(?:pub )?([^\s:(){}.;,]+)(?: [^:=→]*)? :(?:\s|$)")
# names that another definition would take
OTHER = {"has-code": "all_have_code", "known-ground": "known_ground_holds", "handIn": "hand_in_answer"}
USE = re.compile(r"^(?:ghost )?use ([^\s{;]+?)(?:\.\{([^}]*)\})?(?: as (\S+?))?;?$", re.M)
# what the kit makes for a function's proof is named there
MADE = re.compile(r"^(Need|After|At|In|Then|Else|Before|invariant|decreases|loop|returns)-")


def snake(name):
    base = re.sub(r"(?<=[a-z0-9])([A-Z])", lambda m: "_" + m[1].lower(), name)
    return base.replace("-", "_")


def turns(name):
    if not re.match(r"[a-z]", name) or snake(name) == name or MADE.match(name):
        return False
    return bool(re.search(r"[a-z0-9][A-Z]|[^-]-[^-]", name))


def read(path):
    with open(path, encoding="utf-8") as it:
        return it.read()


def code_of(line):
    """The part of a line of antt before its comment."""
    at = re.search(r"(^|\s)--(\s|$|-)", line)
    return (line[: at.start()], line[at.start() :]) if at else (line, "")


def imported(text, own):
    """Names that the file imports from the kit, and from crates here."""
    kit, here = set(), set()
    for m in USE.finditer(text):
        words = []
        for it in (m[2] or "").split(","):
            words += [w for w in it.split() if w != "as"]
        path = m[1].split(".")
        is_own = path[0] == "Rattle" and len(path) > 1 and path[1] in own
        (here if is_own else kit).update(words)
    return kit, here


def ghost_parts(text):
    """Spans of a source that are clauses or ghost items."""
    spans = []
    for m in re.finditer(r"^[ \t]*ghost use [^;]*;", text, re.M):
        spans.append(m.span())
    for m in re.finditer(r"^[ \t]*(?:requires|ensures|invariant|ghost)\*?(?: \w+)?\s*(?:: )?\{", text, re.M):
        deep, i = 0, m.end() - 1
        while True:
            deep += {"{": 1, "}": -1}.get(text[i], 0)
            i += 1
            if not deep:
                break
        spans.append((m.end() - 1, i))
    return sorted(spans)


def main():
    root = os.getcwd()
    own = {os.path.basename(os.path.dirname(it.rstrip("/"))) for it in glob.glob(f"{root}/crates/*/src/")}
    antt = sorted(it for c in own for k in ("specs", "proofs") for it in glob.glob(f"{root}/crates/{c}/{k}/**/*.antt", recursive=True))
    sources = sorted(it for c in own for it in glob.glob(f"{root}/crates/{c}/src/**/*.rt", recursive=True))
    new, said, together = {}, [], collections.defaultdict(set)
    for path in antt:
        walk = path.endswith("/Proof.antt")
        tokens = set()
        for line in read(path).split("\n"):
            line = code_of(line)[0]
            tokens.update(TOKEN.findall(line))
            m = STATED.match(line)
            if m and turns(m[1]) and not (walk and line.partition(" : ")[2].startswith("tie.")):
                new[m[1]] = OTHER.get(m[1], snake(m[1]))
        for t in tokens:
            together[t].add(path)
    # a lemma or field with its definition's name gets `_lem`, but where no file has both
    back = collections.defaultdict(set)
    for name, it in new.items():
        back[it].add(name)
    for it, names in sorted(back.items()):
        dashed = sorted(n for n in names if "-" in n)
        for name in dashed if len(names) > 1 or it in together else ():
            others = (names - {name}) | {it}
            if any(together[name] & together[o] for o in others):
                new[name] = it + "_lem"
                said.append(f"as a lemma: {new[name]} of {name}, beside {', '.join(sorted(others & set(together)))}")

    def turned(token, kept):
        return new.get(token, token) if token not in kept else token

    for path in antt:
        text = read(path)
        kept = imported(text, own)[0]
        tokens = {t for line in text.split("\n") for t in TOKEN.findall(code_of(line)[0])}
        for t in sorted(tokens):
            if t in new and t not in kept and new[t] in tokens:
                said.append(f"falls together: {t} in {os.path.relpath(path, root)}")
        out = []
        for line in text.split("\n"):
            code, rest = code_of(line)
            # a comment that names a definition follows it
            rest = re.sub(r"`([^`]+)`", lambda m: "`" + TOKEN.sub(lambda t: turned(t[0], kept), m[1]) + "`", rest)
            out.append(TOKEN.sub(lambda t: turned(t[0], kept), code) + rest)
        write(path, text, "\n".join(out))

    for path in sources:
        text = read(path)
        kept = imported(text, own)[0]
        spans = ghost_parts(text)
        outside, at = [], 0
        for a, b in spans:
            outside.append(text[at:a])
            at = b
        outside.append(text[at:])
        plain = re.sub(r"//[^\n]*", "", "".join(outside))
        # a parameter hides a word of its name
        words = set(re.findall(r"(?:^|[(,])\s*(?:mut )?(\w+):", plain, re.M))
        clash = {t for t in new if new[t] in words}
        parts, at = [], 0
        for a, b in spans:
            parts.append(text[at:a])
            part = text[a:b]
            if part.lstrip().startswith("ghost use"):
                def import_of(t):
                    name = turned(t[0], kept)
                    return f"{name} as {name}'" if name != t[0] and t[0] in clash else name
                part = TOKEN.sub(import_of, part)
            else:
                def cited(t):
                    name = turned(t[0], kept)
                    return name + "'" if name != t[0] and t[0] in clash else name
                part = TOKEN.sub(cited, part)
            parts.append(part)
            at = b
        parts.append(text[at:])
        tokens = {t for a, b in spans for t in TOKEN.findall(text[a:b])}
        for t in sorted(tokens & clash):
            said.append(f"with an apostrophe: {new[t]}' in {os.path.relpath(path, root)}")
        for t in sorted(tokens):
            if t in new and t not in kept and new[t] in tokens:
                said.append(f"falls together: {t} in {os.path.relpath(path, root)}")
        write(path, text, "".join(parts))
    print("\n".join(said))
    print(f"{len(new)} names")


def write(path, old, text):
    if text != old:
        with open(path, "w", encoding="utf-8") as it:
            it.write(text)


if __name__ == "__main__":
    sys.exit(main())
