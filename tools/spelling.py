#!/usr/bin/env python3
"""Brings the names of the repository's own definitions and lemmas to one spelling: functions, constructors, fields and lemmas in snake case.

  tools/spelling.py            prints each name with its new spelling, and names that would fall together
  tools/spelling.py --write    turns them, in crates/ (.antt, the clauses of .rt, .edit) and in the code spans of docs/ and README.md

A dash joins two names of definitions, as in `length-table`; a plain word is added with `_`. Functions of src/, strings, and text outside code spans
stay as they are. Names are taken from specs/*.antt and proofs/*.antt; the names that a check makes (in proofs/F/) stay.
"""
import collections, re, sys
from pathlib import Path

ROOT = Path(__file__).resolve().parent.parent
# names of the library's, of which a lemma may speak
LIBRARY = set("length take drop set append get_or replicate map flat_map reverse snoc max min add mul sub div pow mod".split())
# a library's lemma is spelled so; here it is a constructor
FIXED = {"at_least_lem": "at_least", "getD": "get_or"}
# names that would fall together with a definition's: a lemma gets `_lem`, as the library's do, and a row or a field another word
APART = {
    **{name: name.replace("-", "_") + "_lem" for name in "box_of first-no counted_of word-at gap_at marks-of marked-in sheet-by model_of".split()},
    **{name: name.replace("-", "_") + "_lem" for name in "slot-child slot-role without-last verdict-in first-broken model-bytes".split()},
    "nameRow": "named_row",
    "terms-in": "terms_in_range",
}
DECLARED = re.compile(r"^(\s*)((?:(?:unfoldable|abbrev|pub|record|data)\s+)*)([^\s:(){}.,]+)\s*(?:[({].*)?:(?:\s|$)")
CONSTRUCTORS = re.compile(r"^\s+((?:[a-z][^\s:(){}.,]*\s+)+):\s")
# of these a function of src/, or what a check makes of it, has the name too
LEMMAS = {"box_of", "counted_of", "gap_at", "model_of"}
WORD = re.compile(r'[^\s(){}.,;@"«»`]+')


def snake(part):
    part = FIXED.get(part, part)
    if part[:1].isupper():
        return part
    return re.sub(r"([a-z0-9])([A-Z])", lambda m: m[1] + "_" + m[2].lower(), part)


def sources():
    return sorted([*ROOT.glob("crates/*/specs/*.antt"), *ROOT.glob("crates/*/proofs/*.antt")])


def names():
    """Each declared name, and whether it is a definition's."""
    found = {}
    for path in sources():
        inside = None  # in a record or data
        for line in path.read_text().split("\n"):
            bare = line.split(" -- ")[0]
            if bare.strip().startswith("--") or bare.strip().startswith("use "):
                continue
            indent = len(bare) - len(bare.lstrip())
            if inside is not None and bare.strip() and indent <= inside:
                inside = None
            match = DECLARED.match(bare)
            if match and match[3] not in ("let", "where", "module"):
                kinds = match[2].split()
                definition = inside is not None or any(k in kinds for k in ("unfoldable", "abbrev", "record", "data"))
                found[match[3]] = found.get(match[3], False) or definition
                if "record" in kinds or "data" in kinds:
                    inside = indent
            elif inside is not None:
                many = CONSTRUCTORS.match(bare)
                for name in many[1].split() if many else []:
                    if name != "pub":
                        found[name] = True
    return found


def spelling():
    found = names()
    words = set(LIBRARY)
    for name, definition in found.items():
        if definition and "-" not in name:
            words.add(snake(name).rstrip("?"))
    table = {}
    for name, definition in found.items():
        if name in APART:
            table[name] = APART[name]
            continue
        if name in FIXED:
            table[name] = FIXED[name]
            continue
        if not re.match(r"[A-Za-z]", name):
            continue
        parts = [snake(part) for part in name.split("-")]
        new = parts[0]
        for before, part in zip(parts, parts[1:]):
            dash = not definition and before in words and part in words
            new += ("-" if dash else "_") + part
        if new != name:
            table[name] = new
    return table, found


def turn(text, table, lemmas=False):
    stays = lambda m: m[0] in LEMMAS and (not lemmas or text[m.start() - 1 : m.start()] == ".")
    return WORD.sub(lambda m: m[0] if stays(m) else table.get(m[0], m[0]), text)


def antt(text, table):
    out = []
    for line in text.split("\n"):
        m = re.match(r"^((?:(?!--).|(?<=\S)--)*?)((?:^|(?<=\s))--.*)?$", line)
        code, comment = (m[1], m[2] or "") if m else (line, "")
        out.append(turn(code, table, True) + re.sub(r"`[^`]*`", lambda s: turn(s[0], table), comment))
    return "\n".join(out)


RUST = re.compile(r'//[^\n]*|b?"(?:\\.|[^"\\])*"|b?\'(?:\\.|[^\'\\\n])\'')


def rust(text, table):
    out, at = [], 0
    for m in RUST.finditer(text):
        out.append(turn(text[at : m.start()], table))
        out.append(re.sub(r"`[^`]*`", lambda s: turn(s[0], table), m[0]) if m[0].startswith("//") else m[0])
        at = m.end()
    return "".join(out) + turn(text[at:], table)


def prose(text, table):
    return re.sub(r"`[^`\n]*`", lambda s: turn(s[0], table), text)


def edit(text, table):
    inside = re.search(r"^file: *(\S+)", text, re.M)
    out = []
    kind = None
    for line in text.split("\n"):
        m = re.match(r"(file|old|new): ?(.*)$", line)
        if m and m[1] == "file":
            kind = m[2].strip()
        if m and m[1] != "file":
            body = (antt if kind and kind.endswith(".antt") else rust)(m[2], table)
            out.append(f"{m[1]}: {body}")
        else:
            out.append(line if m else prose(line, table))
    return "\n".join(out)


def main():
    table, found = spelling()
    together = collections.defaultdict(set)
    for name in found:
        together[table.get(name, name)].add(name)
    for new, olds in sorted(together.items()):
        if len(olds) > 1:
            print("fall together:", new, sorted(olds))
    if "--write" not in sys.argv:
        for old, new in sorted(table.items()):
            print(old, "->", new)
        return
    for path in sorted(ROOT.glob("crates/**/*")):
        if "out" in path.parts or not path.is_file():
            continue
        form = {".antt": antt, ".rt": rust, ".edit": edit}.get(path.suffix)
        if form:
            text = path.read_text()
            new = form(text, table)
            if new != text:
                path.write_text(new)
    for path in [ROOT / "README.md", *sorted(ROOT.glob("docs/*.md"))]:
        text = path.read_text()
        new = prose(text, table)
        if new != text:
            path.write_text(new)


main()
