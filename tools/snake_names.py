#!/usr/bin/env python3
"""Brings the names of definitions and lemmas to snake case: in specs/, proofs/, the ghost text of src/, and must-fail edits.

usage: python3 tools/snake_names.py            at the top of the repository, once, right after the kit's port.py
       python3 tools/snake_names.py --report   says what would be renamed, and which names fall together

Types and modules keep their capital, names of src/ their spelling, strings and comments their text. A lemma whose name falls
together with another name gets `_lem`.
"""
import collections
import glob
import re
import sys

DELIMITERS = "\\s(){}\\[\\],;.:\"λ"
TOKEN = re.compile("[^" + DELIMITERS + "]+")
HEAD = re.compile(r"^[ ]*(?:abbrev |unfoldable |pub |mod )*([a-z][^\s(){},.;=:]*)(?=\s*:\s)", re.M)
PARAM = re.compile(r"[({]((?:[^\s(){},.;=:]+\s+)*[^\s(){},.;=:]+)\s*:\s")


def antt_files():
    return sorted(f for p in ("specs", "proofs") for f in glob.glob(f"crates/*/{p}/**/*.antt", recursive=True))


def code_only(text, dash="--"):
    """The text with comments and strings blanked, of the same length."""
    out, i = list(text), 0
    while i < len(text):
        j = i
        if text.startswith(dash, i) and (i == 0 or text[i - 1].isspace()):
            j = text.find("\n", i)
            j = len(text) if j < 0 else j
        elif text[i] == '"':
            j = i + 1
            while j < len(text) and text[j] != '"':
                j += 2 if text[j] == "\\" else 1
            j += 1
        for k in range(i, min(j, len(text))):
            if out[k] != "\n":
                out[k] = " "
        i = max(j, i + 1)
    return "".join(out)


def imports(text):
    """(module, names) of each use line."""
    for m in re.finditer(r"^(?:ghost )?use\s+([^\s{;]+?)(?:\.\{([^}]*)\})?;?\s*(?:as\s+\S+;?\s*)?$", text, re.M):
        yield m[1], [n.strip().split(" as ")[0] for n in (m[2] or "").split(",") if n.strip()]


def snake(name):
    if re.fullmatch(r"x[0-9A-F]{2}", name):
        return name.lower()
    name = re.sub(r"(?<=[a-z0-9'])([A-Z])", lambda m: "_" + m[1].lower(), name)
    return name.replace("-", "_").lower() if name.isascii() else re.sub(r"-", "_", name)


def wanted(name):
    return name[0].islower() and ("-" in name or re.search(r"[a-z0-9][A-Z]", name))


def collect():
    """The names to turn: what specs/ and proofs/ declare, but for what is imported from elsewhere."""
    declared, elsewhere, defined = collections.Counter(), set(), set()
    for f in antt_files():
        if proof_of_function(f):
            continue
        text = code_only(open(f).read())
        for mod, names in imports(text):
            if not mod.startswith("Rattle.") or mod.startswith("Rattle.std."):
                elsewhere.update(names)
        for m in HEAD.finditer(text):
            declared[m[1]] += 1
            defined.add(m[1])
        for m in PARAM.finditer(text):
            for n in m[1].split():
                declared[n] += 1
        for m in re.finditer(r"\blet ([a-z][^\s(){},.;=:]*)\s*(?::|=)", text):
            declared[m[1]] += 1
        for m in re.finditer(r"λ ((?:[^\s(){},.;=:]+\s*)+)\.", text):
            for n in m[1].split():
                declared[n] += 1
        # arguments on the left of a definition's cases
        for m in re.finditer(r"^ *[a-z][^\s(){},.;=:]*((?: +[^=\n]*)?) =", text, re.M):
            for n in TOKEN.findall(m[1]):
                declared[n] += 1
    names = {n for n in declared if wanted(n) and n not in elsewhere}
    return names, defined, elsewhere


RECORD = re.compile(r"^( *)(?:pub )?record [^\n]*where\n((?:\1 +[^\n]*\n|\n)*)", re.M)


def fields():
    """The names of records' fields."""
    found = set()
    for f in antt_files():
        for m in RECORD.finditer(code_only(open(f).read())):
            found |= set(HEAD.findall(m[2]))
    return found


def functions():
    """The names that are declared outside records."""
    found = set()
    for f in antt_files():
        if not proof_of_function(f):
            found |= set(HEAD.findall(RECORD.sub("", code_only(open(f).read()))))
    return found


def tokens(text):
    return set(TOKEN.findall(text))


def proof_of_function(f):
    return re.search(r"/proofs/.*/(Proof|Answers|Invariants)\.antt$", f) is not None


def generated(name):
    """A name that Rattle makes of a function's proof."""
    return re.match(r"(invariant|decreases)-loop", name) is not None


def turned(text, table, walk, dash="--"):
    bare = code_only(text, dash)
    out, last = [], 0
    for m in TOKEN.finditer(bare):
        new = table.get(m[0])
        if not new:
            continue
        behind_dot = m.start() > 0 and bare[m.start() - 1] == "."
        if walk and "-" in m[0] and behind_dot and not re.search(r"\b[A-Z]\w*\.$", bare[: m.start()]):
            continue
        out += [text[last : m.start()], new]
        last = m.end()
    return "".join(out) + text[last:]


# lemmas that fall together with a function that is turned, in the crates where they do
LEMMAS = {"all_set": ("service_entry", "service_list"), "closing_at": ("theorem_altered", "theorem_why"), "list_back": ("service_list", "theorem_packet")}


def with_lemmas(table, f):
    return table | {n: n + "_lem" for n, crates in LEMMAS.items() if f.split("/")[1] in crates}


GHOST = re.compile(r"^ *ghost use [^;]*;|^ *(?:requires|ensures|ghost)\*?(?: \w+)?:? \{", re.M)


def ghost_parts(text):
    """Where ghost text stands in a source file."""
    bare = code_only(text, "//")
    for m in GHOST.finditer(bare):
        if m[0].rstrip().endswith(";"):
            yield m.start(), m.end()
            continue
        deep, i = 0, m.end() - 1
        while i < len(bare):
            deep += (bare[i] == "{") - (bare[i] == "}")
            i += 1
            if deep == 0:
                break
        yield m.start(), i


def turned_source(text, table):
    out, last = [], 0
    for a, b in ghost_parts(text):
        out += [text[last:a], turned(text[a:b], table, False, "//")]
        last = b
    out.append(text[last:])
    # comments name definitions too: only those with a capital inside, which no English word has
    text = "".join(out)
    return re.sub(r"(?<=//)[^\n]*", lambda m: re.sub(r"[A-Za-z]\w*", lambda n: table.get(n[0], n[0]) if re.search("[a-z][A-Z]", n[0]) else n[0], m[0]), text)


def comment_names(text, table):
    return re.sub(r"(?m)(?<=-- ).*$", lambda m: re.sub(r"[A-Za-z]\w*", lambda n: table.get(n[0], n[0]) if re.search("[a-z][A-Z]", n[0]) else n[0], m[0]), text)


def build():
    names, defined, elsewhere = collect()
    table = {n: snake(n) for n in names if not generated(n)}
    only_fields = fields() - functions()
    by_new = collections.defaultdict(set)
    for old, new in table.items():
        if old in only_fields:
            continue
        by_new[new].add(old)
    seen = {}
    for f in antt_files():
        seen[f] = tokens(code_only(open(f).read()))
    sources = sorted(glob.glob("crates/*/src/**/*.rt", recursive=True))
    report = []
    clash = set()
    for new, olds in by_new.items():
        for f, has in seen.items():
            here = olds & has
            if len(here) > 1 or (here and new in has):
                clash |= {o for o in here if "-" in o}
                report.append(f"{f}: {sorted(here)} and {new if new in has else ''}")
    for o in clash:
        table[o] += "_lem"
    table["field-two"] = "at_field_two"
    return table, report, sources


def main():
    table, report, sources = build()
    if "--report" in sys.argv:
        print("\n".join(report))
        print(len(table), "names")
        for f in sources:
            text = open(f).read()
            ghost = "".join(text[a:b] for a, b in ghost_parts(text))
            hit = {table[t] for t in tokens(ghost) if t in table}
            code = set(re.findall(r"\b[a-z]\w*\b", code_only(text, "//")))
            if hit & code:
                print("source:", f, sorted(hit & code))
        return 0
    for f in antt_files():
        text = open(f).read()
        with open(f, "w") as o:
            o.write(comment_names(turned(text, with_lemmas(table, f), proof_of_function(f)), table))
    for f in sources:
        text = open(f).read()
        with open(f, "w") as o:
            o.write(turned_source(text, table))
    for f in sorted(glob.glob("crates/*/must-fail/*.edit")):
        lines = open(f).read().split("\n")
        lines = [l[:5] + turned(l[5:], table, False, "\0") if l.startswith(("old: ", "new: ")) else l for l in lines]
        with open(f, "w") as o:
            o.write("\n".join(lines))
    print(len(table), "names turned")
    return 0


if __name__ == "__main__":
    raise SystemExit(main())
