#!/usr/bin/env python3
"""Respells the repository's own names as today's Rattle spells names. Ran once, right after the kit's port.py: see docs/PORT.md.

usage: python3 tools/respell.py            at the top of the repository

- A definition, a lemma, a field of a record or a constructor in camel case gets snake case: firstFailing becomes first_failing. Types, modules and the
  symbols of the papers begin with a capital letter and stay; so do names of one letter and a capital, such as pM.
- A dash of a lemma's or a field's name becomes an underscore, but where it joins two names that stand by themselves (a definition of specs/, a
  function of src/, or a word of the library): walk-dropped becomes walk_dropped, and bytes_of-take would stay.

Only names that the files of specs/ and proofs/ declare are turned; names that Rattle makes are not among them. In Rattle's sources that is
said of clauses, `ghost use` lines and comments, which alone have such names; of comments and pages, a name with a dash is turned between
backticks only. The must-fail edits are not turned. It stops, and writes nothing, where two names would fall together.
"""
import collections
import glob
import re
import sys

TOKEN = re.compile(r"[A-Za-z_][\w']*(?:-[\w'⁺⁻]+)*")
DECLARED = re.compile(
    r"^[ ]*(?:pub )?(?:abbrev |unfoldable )?(?:pub )?([a-z][\w']*(?:-[\w']+)*)(?: [a-z][\w']*)* :(?= )", re.M)
DEFINED = re.compile(r"^[ ]*(?:abbrev|unfoldable) (?:pub )?([a-z][\w']*)", re.M)
FUNCTION = re.compile(r"\bfn ([a-z]\w*)")
CAMEL = re.compile(r"[a-z]+[a-z0-9]*(?:[A-Z][a-z0-9]*)+")
LIBRARY = set("""length take drop set append replicate map reverse get_or min max add mul sub div mod quot rem abs neg pow le lt leb ltb eqb
    true false zero suc pos negsuc cond not nat_abs of_z to_z""".split())
# Names that would fall together, or that say more than the rule gives.
BY_HAND = {
    "read_back": "number_at-bytes_of",  # the lemma on digits, since the definition readBack becomes read_back
    "upTo10h": "up_to_10h",
    "in_order": "in_order_lem",  # the lemma on the definition inOrder, which becomes in_order
}
# The kit's script turned the one and left the other in a comment; a lemma within a proof and one within another crate's.
TOGETHER = {"in_range", "refused_as"}
STAY = {"pM", "pM'"}


def files(*patterns):
    return [p for pattern in patterns for p in sorted(glob.glob(pattern, recursive=True)) if "/out/" not in p]


def read(path):
    with open(path, encoding="utf-8") as f:
        return f.read()


def snake(word):
    return re.sub(r"(?<=[a-z0-9])[A-Z]", lambda m: "_" + m[0].lower(), word)


def by_rule(name, own):
    parts = [snake(part) for part in name.split("-")]
    out = parts[0]
    for left, right in zip(parts, parts[1:]):
        out += ("-" if left in own and right in own else "_") + right
    return out


def table(antt, sources):
    """Old name, new name, of each name that a file declares and the rule changes."""
    laws = [p for p in antt if not p.endswith("/Proof.antt")]
    texts = [re.sub(r"--[^\n]*", "", read(p)) for p in laws]
    own = LIBRARY | {snake(n) for t in texts for n in DEFINED.findall(t)} | {n for p in sources for n in FUNCTION.findall(read(p))}
    declared = {n for t in texts for n in DECLARED.findall(t)}
    declared |= {n for t in map(read, antt) for n in CAMEL.findall(t) if CAMEL.fullmatch(n)}
    declared |= {n for p in sources for n in CAMEL.findall(read(p))}
    new = {n: by_rule(n, own) for n in declared if n not in STAY}
    new = {n: to for n, to in new.items() if n != to}
    new.update({n: to for n, to in BY_HAND.items() if n in declared})
    # A lemma that would have its definition's name is the definition's lemma.
    defined = {to for n, to in new.items() if "-" not in n}
    return {n: to + "_lem" if "-" in n and to in defined else to for n, to in new.items()}


def fallen_together(new, antt):
    by_new = collections.defaultdict(set)
    for old, to in new.items():
        by_new[to].add(old)
    bad = ["%s: %s" % (to, ", ".join(sorted(olds))) for to, olds in by_new.items() if len(olds) > 1]
    declared = {n for p in antt if not p.endswith("/Proof.antt") for n in DECLARED.findall(re.sub(r"--[^\n]*", "", read(p)))}
    return bad + ["%s: %s" % (to, ", ".join(sorted(olds))) for to, olds in by_new.items() if to in declared - set(new) - TOGETHER]


def turned(new, text):
    return TOKEN.sub(lambda m: new.get(m[0], m[0]), text)


def in_prose(new, text):
    """A comment or a page: names in camel case anywhere, names with a dash between backticks."""
    camel = {old: to for old, to in new.items() if "-" not in old and CAMEL.fullmatch(old)}
    return re.sub(r"`[^`\n]*`", lambda m: turned(new, m[0]), turned(camel, text))


def of_page(new, words, text):
    """The table, with the names (words) that the kit's script turned in the sources and not in this page."""
    more = dict(new)
    for old in set(TOKEN.findall(text)) - set(new) - words - STAY:
        to = snake(old).replace("-", "_")
        if to != old and to in words and old[0].islower():
            more[old] = to
    return more


def in_code(new, text, comment):
    out = []
    for line in text.split("\n"):
        at = line.find(comment) if line.lstrip().startswith(comment) else line.find(" " + comment + " ")
        at = len(line) if at < 0 else at
        out.append(turned(new, line[:at]) + in_prose(new, line[at:]))
    return "\n".join(out)


def main():
    antt = files("crates/*/specs/**/*.antt", "crates/*/proofs/**/*.antt")
    sources = files("crates/*/src/**/*.rt")
    new = table(antt, sources)
    bad = fallen_together(new, antt)
    if bad:
        print("these names would fall together:\n  " + "\n  ".join(bad))
        return 1
    changed = 0
    # What Rust names in sources has no capital inside and no dash, so that clauses and comments alone have names of the table.
    in_source = {old: to for old, to in new.items() if "-" not in old and CAMEL.fullmatch(old)}
    turns = [(antt, lambda t: in_code(new, t, "--")), (sources, lambda t: in_code(in_source, t, "//")),
             (files("README.md", "docs/*.md", "include/*.h", "tests/*.*", "tools/*.py", "bench/*.[ch]"), None)]
    words = {new.get(w, w) for p in antt if not p.endswith("/Proof.antt") for w in DECLARED.findall(read(p))}
    turns[-1] = (turns[-1][0], lambda t: in_prose(of_page(new, words, t), t))
    for paths, turn in turns:
        for path in paths:
            if path.endswith("respell.py"):
                continue
            before = read(path)
            after = turn(before)
            if after != before:
                changed += 1
                with open(path, "w", encoding="utf-8") as f:
                    f.write(after)
    print("%d names, %d files" % (len(new), changed))
    return 0


if __name__ == "__main__":
    sys.exit(main())
