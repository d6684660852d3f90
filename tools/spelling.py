#!/usr/bin/env python3
"""Respells the repository's own names of definitions and lemmas as today's Rattle spells names. Run at the top, right after the kit's
port script, and once only.

    python3 tools/spelling.py            rewrites crates/, README.md, docs/ and .ci/promises in place
    python3 tools/spelling.py --table    prints the table, old name and new one, and changes nothing

The rules. A name in camel case that begins with a small letter becomes snake case (`leafSet`, `leaf_set`). In a name with dashes a dash stays
only between two names, as in `length-keep-lt`; a plain word hangs on by `_`, as in `leaves_iff`. A name that would fall together with another
in some file, or with a field or a binder that it stands beside, ends in `_lem`. Types, names that the checker makes, functions, C names and
strings keep their spelling.
"""
import os
import re
import sys

TOKEN = re.compile(r"[^\s(){}.;,@\"«»⌜⌝`]+")
CAMEL = re.compile(r"^[a-z][a-z0-9]*[A-Z]")
DECLARED = re.compile(r"^\s*(?:(?:pub|unfoldable|abbrev|pattern)\s+)*([^\s(){}.;,@\"«»]+) : ", re.M)
# names of the library, and its words for operators, that a dash may join to a name
WORDS = set(
    "length map append drop take reverse set sets get_or keep bind every any elem mem le lt mul add sub pow suc zero nil cons cond and or not "
    "union max min sum count sublist perm eqb leb ltb decimal".split()
)
# lemmas that would have a definition's name, and have no dash by which the rules would know them
BY_HAND = {n: n + "_lem" for n in ("all_apart", "in_one", "no_text", "told_of")}


def read(path):
    with open(path, encoding="utf-8") as f:
        return f.read()


def files(top, *ends):
    for folder, dirs, names in sorted(os.walk(top)):
        dirs[:] = [d for d in dirs if d not in ("out", ".git", "target")]
        for n in sorted(names):
            if n.endswith(ends):
                yield os.path.join(folder, n)


def is_walk(path):
    """A function's own proof: a file in proofs/ that is named Proof, or that lies below such a folder."""
    return "/proofs/" in path and bool(re.search(r"/Proof(\.antt|/)", path))


def snake(part):
    part = re.sub(r"([a-z0-9])([A-Z])", r"\1_\2", part)
    return part.lower()


def respelled(name, names):
    if name in BY_HAND:
        return BY_HAND[name]
    head = re.match(r"^[^A-Za-z]*", name)[0]
    if name[len(head) : len(head) + 1].isupper():
        return name
    parts = [snake(p) if CAMEL.match(p.strip("→+'")) or CAMEL.match(re.sub(r"^[^A-Za-z]*", "", p)) else p for p in name.split("-")]
    # the longest runs of parts that are one name, joined by '_'
    runs, at = [], 0
    while at < len(parts):
        for end in range(len(parts), at, -1):
            run = "_".join(parts[at:end])
            if run in names or end == at + 1:
                runs.append((run, run in names))
                at = end
                break
    text = runs[0][0]
    for (_, was), (run, now) in zip(runs, runs[1:]):
        text += ("-" if was and now else "_") + run
    return text


def table():
    specs, declared, tokens, every = set(), set(), {}, set()
    for path in files("crates", ".antt"):
        text = read(path)
        every |= set(TOKEN.findall(re.sub(r"--[^\n]*", "", text)))
        if is_walk(path):
            continue
        found = set(DECLARED.findall(text))
        if "/specs/" in path:
            specs |= {n for n in found if "-" not in n}
        declared |= {n for n in found if "-" in n}
        # its rows are named after functions, and what they cite is told apart there by its module
        if path.endswith("/OneOutcome.antt"):
            continue
        code = re.sub(r"--[^\n]*", "", text)
        tokens[path] = set(TOKEN.findall(code))
    for path in files("crates", ".rt"):
        # a function may have its definition's name, but a parameter hides a word of its clauses
        code = re.sub(r"//[^\n]*", "", read(path))
        clauses = "\n".join(l for l in code.split("\n") if re.match(r"\s*(requires|ensures|ghost)\b", l))
        tokens[path] = set(TOKEN.findall(clauses)) | set(re.findall(r"\b([a-z_0-9]+): ", code))
    names = WORDS | {snake(n) if CAMEL.match(n) else n for n in specs if not n[0].isupper()}
    every = every.union(*tokens.values())
    camel = {t for t in every if CAMEL.match(re.sub(r"^[^A-Za-z]*", "", t)) and "-" not in t}
    # names that the checker makes begin with a capital or hold a dash, and stand in functions' own proofs alone
    new = {}
    for n in sorted(camel | declared | set(BY_HAND)):
        it = respelled(n, names)
        if it != n:
            new[n] = it
    # names that fall together in a file, or a lemma with a definition of another file
    tokens["all"] = {n for n in new if n not in BY_HAND}
    again = True
    while again:
        again = False
        for path, words in sorted(tokens.items()):
            seen = {}
            for w in sorted(words):
                to = new.get(w, w)
                if to in seen and seen[to] != w:
                    other = seen[to]
                    # the lemma gives way to the definition
                    loser = max((x for x in (w, other) if x in new), key=lambda x: ("-" in x, x))
                    if loser.startswith("_") or new[loser].endswith("_lem"):
                        raise SystemExit(f"{path}: {w} and {seen[to]} fall together as {to}")
                    new[loser] = new[loser] + "_lem"
                    again = True
                    break
                seen[to] = w
    return new


def turned(text, new, dashes):
    return TOKEN.sub(lambda m: new[m[0]] if m[0] in new and (dashes or "-" not in m[0]) else m[0], text)


SPAN = re.compile(r"`[^`\n]*`")
LISTED = re.compile(r"(?m)^(\s*(?:--|//)\s{4,})(\S+(?:, \S+)*)(?=  |$)")


def comment(text, new):
    text = LISTED.sub(lambda m: m[1] + turned(m[2], new, True), text)
    text = SPAN.sub(lambda m: turned(m[0], new, True), text)
    return turned(text, new, False)


def antt(text, new, walk):
    out = []
    for at, line in enumerate(text.split("\n")):
        m = re.search(r"(?:(?<=\s)|^)--(?=\s|$|-)", line)
        code, rest = (line[: m.start()], line[m.start() :]) if m else (line, "")
        if walk:
            # what stands behind a dot may be the checker's own
            code = re.sub(TOKEN, lambda t: new[t[0]] if t[0] in new and ("-" not in t[0] or code[t.start() - 1 : t.start()] != ".") else t[0], code)
        else:
            code = turned(code, new, True)
        out.append(code + comment(rest, new))
    return "\n".join(out)


def rt(text, new):
    out, clause = [], False
    for line in text.split("\n"):
        if re.match(r"\s*//", line):
            out.append(comment(line, new))
            continue
        clause = bool(re.match(r"\s*(requires|ensures|ghost)\b", line)) or (clause and not re.match(r"^\s*[{]?\s*$", line) and not line.startswith("{"))
        code, sep, rest = line.partition(" // ")
        out.append(turned(code, new, clause) + (sep + comment(rest, new) if sep else ""))
    return "\n".join(out)


def write(path, text, old):
    if text != old:
        with open(path, "w", encoding="utf-8") as f:
            f.write(text)


def main():
    new = table()
    if "--table" in sys.argv:
        for a in sorted(new):
            print(a, new[a], sep="\t")
        return
    for path in files("crates", ".antt"):
        old = read(path)
        write(path, antt(old, new, is_walk(path)), old)
    for path in files("crates", ".rt"):
        old = read(path)
        write(path, rt(old, new), old)
    for path in files("crates", ".edit"):
        old = read(path)
        write(path, "\n".join(comment(l, new) if l.startswith("#") else turned(l, new, True) for l in old.split("\n")), old)
    for path in [*files("docs", ".md"), "README.md"]:
        old = read(path)
        write(path, comment(old, new), old)
    old = read(".ci/promises")
    write(".ci/promises", turned(old, new, False), old)


if __name__ == "__main__":
    main()
