#!/usr/bin/env python3
"""Spells the repository's own definitions and lemmas as the kit does: words in snake case, types in camel case.

    python3 tools/respell.py            at the top, right after the kit's port.py, and only there: see docs/PORT.md

A dash in an own word becomes an underscore, also in a name in camel case that is no type; in a type the dash goes and the next letter is a capital.
Names that Rattle makes for a goal, names of the libraries and everything outside clauses in src/ stay.
"""
import glob
import re
import sys

WORD = re.compile(r'[^\s(){}.;,@"«»`]+')
DECLARED = re.compile(r'\s*((?:(?:pub|abbrev|unfoldable|data|record)\s+)*)([^\s(){};,.@"«»:=]+(?: [^\s(){};,.@"«»:=]+)*)(?: [({].*)? : (.*)')
USE = re.compile(r"\buse ([^\s;{]+?)\.\{([^}]*)\}")
# Words that would fall together with another in snake case.
APART = {"ends-in": "ends_inside", "other-in": "other_bytes_in", "other-of": "other_of_step"}
OWN = {line.split(":")[0] for line in open("crates.txt") if ":" in line}


def files(*kinds):
    return sorted(f for k in kinds for f in glob.glob(f"crates/*/{k}", recursive=True) if "/out/" not in f)


def is_type(kind, of):
    return "data" in kind or "record" in kind or bool(re.search(r"Type \d\s*(where)?$", of))


def declared():
    """The own words that are to change, each with its new spelling."""
    names, all_names = {}, set()
    for f in files("specs/**/*.antt", "proofs/**/*.antt"):
        made = f.endswith("/Proof.antt")
        for line in open(f):
            m = DECLARED.match(line)
            if not m or line.lstrip().startswith("--"):
                continue
            for n in m[2].split():
                all_names.add(n)
                if made or "/Proof/" in f and n == "Inv-loop":
                    continue
                if n[0].isupper():
                    if "-" in n and is_type(m[1], m[3]):
                        names[n] = re.sub(r"-(.)", lambda w: w[1].upper(), n)
                    elif "-" in n:
                        names.setdefault(n, n.replace("-", "_"))
                elif "-" in n or re.fullmatch(r"[a-z][a-z0-9]*(?:[A-Z][a-z]+)+", n):
                    snake = re.sub(r"(?<=[a-z0-9])[A-Z]", lambda w: "_" + w[0].lower(), n)
                    names[n] = snake.replace("-", "_")
    names.update({old: new for old, new in APART.items() if old in all_names})
    return names, all_names


def fall_together(names, all_names):
    new = {}
    for old, to in names.items():
        new.setdefault(to, set()).add(old)
        if to in all_names and to not in names:
            new[to].add(to)
    return {to: olds for to, olds in new.items() if len(olds) > 1}


def kept(text):
    """The words that this file takes from a library, or that Rattle makes in it."""
    words = set()
    for path, items in USE.findall(text):
        root = path.split(".")
        if not (root[0] == "Rattle" and len(root) > 1 and root[1] in OWN):
            words |= {w for it in items.split(",") for w in it.split()}
    for line in text.splitlines():
        m = re.match(r"(?:abbrev )?(?:pub )?([^\s]+) : (?:tie|goal|\w+)\.(?:Need|invariant|decreases|Spec)", line)
        if m:
            words.add(m[1])
    return words


def turn(text, names, stay):
    def one(m):
        w = m[0]
        at = m.start()
        if w not in names or w in stay:
            return w
        if re.search(r"\b(?:tie|goal|lts|goals)\.$", text[:at]):
            return w
        return names[w]

    return WORD.sub(one, text)


def clauses(text, names):
    """In a source file the ghost imports, the clauses and the comments' code alone change."""
    stay = kept(text)
    spans = [m.span() for m in re.finditer(r"ghost use [^;]*;|`[^`\n]*`", text)]
    for m in re.finditer(r"(?:requires|ensures|ghost)\*?(?: \w+)? (?:= )?\{", text):
        depth, i = 1, m.end()
        while depth:
            depth += {"{": 1, "}": -1}.get(text[i], 0)
            i += 1
        spans.append((m.end(), i))
    for a, b in sorted(spans, reverse=True):
        text = text[:a] + turn(text[a:b], names, stay) + text[b:]
    return text


def spans(text, names):
    """Of a page the code spans alone."""
    return re.sub(r"`[^`\n]+`", lambda m: turn(m[0], names, set()), text)


def main():
    if not any(re.search(r"^use Rattle\..*\.Tie as tie$", open(f).read(), re.M) for f in files("proofs/**/Proof.antt")):
        sys.exit("respell: this is no repository that the kit's script has just turned: nothing is done")
    names, all_names = declared()
    bad = fall_together(names, all_names)
    for to, olds in sorted(bad.items()):
        print(f"look: {' and '.join(sorted(olds))} would be {to}")
    count = 0
    turned = [(f, lambda t: turn(t, names, kept(t))) for f in files("specs/**/*.antt", "proofs/**/*.antt")]
    turned += [(f, lambda t: clauses(t, names)) for f in files("src/**/*.rt", "must-fail/*.edit")]
    pages = [p for p in ["README.md", *glob.glob("docs/*.md")] if not p.startswith("docs/PORT")]
    turned += [(f, lambda t: spans(t, names)) for f in sorted(pages)]
    for f, by in turned:
        old = open(f).read()
        new = by(old)
        if new != old:
            count += 1
            if "--check" not in sys.argv:
                open(f, "w").write(new)
    print(f"{len(names)} words, {count} files")


main()
