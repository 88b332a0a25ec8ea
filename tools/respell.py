#!/usr/bin/env python3
"""Brings the repository's own names to one spelling: words in snake case, types in camel case.

Run once, at the top, after the kit's port.py. It respells each definition, lemma, field and constructor that a file of specs/ or
proofs/ declares (Proof.antt files only cite), wherever .antt files, clauses of .rt files and must-fail edits name it.
Names that the library also has are left; names that would fall together are printed.
"""
import collections, glob, re, sys

NAME = r"[A-Za-z_\u0370-\u03ff\u2080-\u2089\u2200-\u22ff'][A-Za-z0-9_\u0370-\u03ff\u2080-\u2089'·]*(?:-[A-Za-z0-9_\u0370-\u03ff\u2080-\u2089'·]+)*"
TOKEN = re.compile(NAME)
OWN = {l.split(":")[0].split()[0] for l in open("crates.txt") if l.strip() and not l.startswith("#")}

# types that were spelled as words, in the only files that cite them
TYPES = {"blocksRates": "BlocksRates", "clearsRates": "ClearsRates"}

# names that would fall together with another's
APART = {
    "by-periods": "by_periods_lem",
    "by-rates": "by_rates_lem",
    "in-form": "in_form_lem",
    "old-body": "old_body_lem",
    "ranOn": "ran_with",
    "run_out": "run_out_lem",
    "run_in": "run_in_lem",
    "is_digit": "is_digit_lem",
}


def antt():
    return sorted(glob.glob("crates/*/specs/**/*.antt", recursive=True) + glob.glob("crates/*/proofs/**/*.antt", recursive=True))


def declared():
    names = collections.defaultdict(set)
    for f in antt():
        if f.endswith("/Proof.antt"):
            continue
        for line in open(f):
            m = re.match(r"^\s*((?:abbrev |unfoldable |pub |data |record )*)(" + NAME + r")((?: .*?)??) :(?: |$)", line)
            if not m or m.group(2) in ("let", "use", "module", "where"):
                continue
            if m.group(3) and not re.search("data|record", m.group(1)):
                continue
            names[m.group(2)].add(f)
    return names


def cited_of_libraries():
    names = set()
    for f in antt():
        for line in open(f):
            m = re.match(r"\s*use ([^\s{]+)\.\{(.*)\}", line)
            if m and not any(m.group(1).startswith("Rattle." + c + ".") for c in OWN):
                names |= {p.split(" as ")[0].strip() for p in m.group(2).split(",")}
    return names


def snake(name):
    if name in TYPES:
        return TYPES[name]
    if name in APART:
        return APART[name]
    parts = name.replace("-", "_")
    parts = re.sub(r"(?<=[a-z0-9])([A-Z])(?=[a-z])", lambda m: "_" + m.group(1).lower(), parts)
    parts = re.sub(r"(?<=[a-z])X$", "_x", parts)
    return parts


def mapping():
    names = declared()
    words = {snake(n) for n in names if "-" not in n and n not in APART}
    for n in names:
        # a lemma that would get its function's name
        if "-" in n and n not in APART and snake(n) in words:
            APART[n] = snake(n) + "_lem"
    library = cited_of_libraries()
    out, back = {}, collections.defaultdict(set)
    for name in names:
        camel = re.match(r"[a-z]", name) and re.search(r"[a-z0-9][A-Z]", name)
        new = snake(name) if camel or "-" in name or name in APART else name
        back[new].add(name)
        if new == name:
            continue
        if name in library:
            print("left, the library has it:", name, sorted(names[name]))
            continue
        out[name] = new
    for new, olds in sorted(back.items()):
        if len(olds) > 1:
            print("fall together:", new, {o: sorted(names[o]) for o in olds})
        elif new in library and new not in olds:
            print("falls on a name of the library:", new, olds)
    return out


def turn(text, table, only_camel):
    def one(m):
        name = m.group(0)
        if only_camel and not re.search(r"[a-z0-9][A-Z]", name):
            return name
        if name == name.lower() and "-" not in name and m.start() and text[m.start() - 1] == ".":
            return name
        return table.get(name, name)

    return TOKEN.sub(one, text)


def turn_antt(text, table):
    out = []
    for line in text.split("\n"):
        code, dash, comment = line.partition("--") if line.lstrip().startswith("--") else (line, "", "")
        m = re.match(r"\s*use ([^\s{]+)\.\{", line)
        if m and not any(m.group(1).startswith("Rattle." + c + ".") for c in OWN):
            out.append(line)
            continue
        u = re.match(r"\s*use [^{]*", line)
        if u:
            out.append(u.group(0) + turn(line[u.end():], table, False))
            continue
        out.append(turn(code, table, False) + dash + turn(comment, table, True))
    return "\n".join(out)


def ceilings(f, text):
    """The start tests of RuleCeiling: `blocks` and `clears` are fields and parameters elsewhere."""
    if f.endswith("guarantee/specs/RuleCeiling.antt"):
        head, here, rest = text.partition("module _ (v : Servers) where")
        rest = re.sub(r"(abbrev pub )blocks( : )", r"\1Blocks\2", rest)
        rest = re.sub(r"(abbrev pub )clears( : )", r"\1Clears\2", rest)
        rest = re.sub(r"(?m)^(  )blocks( r f = )", r"\1Blocks\2", rest)
        rest = re.sub(r"(?m)^(  )clears( m r = )", r"\1Clears\2", rest)
        rest = rest.replace("ceilings blocks clears", "ceilings Blocks Clears")
        rest = re.sub(r"(-- )blocks( r f: )", r"\1Blocks\2", rest, count=1)
        rest = re.sub(r"(-- )clears( m r: )", r"\1Clears\2", rest, count=1)
        return head + here + rest
    if "guarantee/proofs/" in f and "guarantee.specs.RuleCeiling.{" in text:
        text = re.sub(r"(?m)^(use Rattle\.guarantee\.specs\.RuleCeiling\.\{.*)\bclears\b(.*\})$", r"\1Clears\2", text)
        text = re.sub(r"(?m)^(use Rattle\.guarantee\.specs\.RuleCeiling\.\{.*)\bblocks\b(.*\})$", r"\1Blocks\2", text)
        text = text.replace("(clears v)", "(Clears v)").replace("(blocks v)", "(Blocks v)")
    return text


def main():
    table = mapping()
    if "--dry" in sys.argv:
        for k in sorted(table):
            print(k, "->", table[k])
        return
    for f in antt():
        text = open(f).read()
        new = ceilings(f, turn_antt(text, table))
        if new != text:
            open(f, "w").write(new)
    for f in sorted(glob.glob("crates/*/src/**/*.rt", recursive=True)):
        text = open(f).read()
        new = turn(text, table, True)
        if new != text:
            open(f, "w").write(new)
    for f in sorted(glob.glob("crates/*/must-fail/*.edit")):
        text = open(f).read()
        new = "\n".join(l if l.startswith("file:") else turn(l, table, False) for l in text.split("\n"))
        if new != text:
            open(f, "w").write(new)


main()
