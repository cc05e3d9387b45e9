#!/usr/bin/env python3
"""Brings the names of definitions and laws to the spelling of Rattle's library: words in snake case, types and modules
in upper camel case. It was run once at the top of the checkout, after the kit's port.py; see docs/PORT.md.

    spelling.py           renames in specs/, proofs/, src/, must-fail/ and docs/
    spelling.py --list    prints what would be renamed, and changes nothing

A name is renamed where specs/ or proofs/ of this repository declare it. Names of Rattle source, names that Rattle makes
and the library's names stay. Where two names of one file would fall together, it says so and changes nothing."""
import collections
import pathlib
import re
import sys

NAME = r"[A-Za-z][A-Za-z0-9_]*(?:-[A-Za-z0-9_₀-₉]+)*'*"
DECLARED = re.compile(rf"^\s*(?:abbrev |unfoldable |pub )*(?:({NAME}) :|(?:data|record) ({NAME}))(?: |$)")
TOKEN = re.compile(NAME)
USE = re.compile(r"^(?:pub )?(?:ghost )?use ([^\s{;]+?)\.?(?:\{([^}]*)\})?(?: as (\S+?))?;?$")
MADE_SPECS = ("declared", "contracts")
MADE_PROOFS = ("Tie", "Reads", "Lts", "Statement", "Goals")
# laws in snake case already, each with the name that its definition gets: "a lemma that would have its function's name
# gets _lem"
LAWS = ("bit_test", "goes_on", "lent_length", "ok_at", "one_line", "operand_in", "set_below")


def respelled(name):
    if name[0].isupper():
        return "".join(part[:1].upper() + part[1:] for part in name.split("-"))
    name = re.sub(r"(?<=[a-z0-9])([A-Z])", lambda m: "_" + m.group(1).lower(), name)
    return name.replace("-", "_")


def antt_files(top):
    return sorted(p for part in ("specs", "proofs") for p in top.glob(f"crates/*/{part}/**/*.antt"))


def is_walk(path):
    return "proofs" in path.parts and path.name in ("Proof.antt", "Answers.antt", "Invariants.antt")


def declared_in(text):
    names = set()
    for line in text.splitlines():
        m = DECLARED.match(line)
        if m and not line.lstrip().startswith("--") and not line.startswith(("use ", "pub use ", "unfolding")):
            names.add(m.group(1) or m.group(2))
    return names


def own_names(top):
    """The names that get another spelling, each with the new one."""
    names = collections.defaultdict(set)
    for path in antt_files(top):
        if not is_walk(path):
            for name in declared_in(path.read_text()):
                names[respelled(name)].add(name)
    new = {}
    for name, olds in names.items():
        for old in olds:
            law = "-" in old and len(olds) > 1 or old in LAWS
            new[old] = name + "_lem" if law else name
    return {old: name for old, name in new.items() if old != name}


def is_own(module):
    parts = module.split(".")
    if parts[0] != "Rattle" or len(parts) < 3 or parts[1] == "std":
        return False
    return parts[2] == "specs" and not any(part in MADE_SPECS for part in parts) \
        or parts[2] == "proofs" and not any(part in MADE_PROOFS for part in parts)


def imports(text):
    """The names that a file has from elsewhere than this repository's own definitions, and its aliases of own modules."""
    foreign, aliases = set(), set()
    for line in text.splitlines():
        m = USE.match(line.strip())
        if not m:
            continue
        module, items, alias = m.groups()
        if alias and is_own(module):
            aliases.add(alias)
        elif not items and is_own(module):
            aliases.add(module.split(".")[-1])
        if items is not None and not is_own(module):
            foreign |= {item.split(" as ")[-1].strip() for item in items.split(",")}
            foreign |= {item.split(" as ")[0].strip() for item in items.split(",")}
    return foreign, aliases


def pieces(line, mark):
    """The line as code, strings and comment: what is said of each piece is its kind."""
    out, i, start = [], 0, 0
    while i < len(line):
        if line.startswith(mark, i) and (i == 0 or line[i - 1] in " \t"):
            out += [("code", line[start:i]), ("comment", line[i:])]
            return out
        if line[i] == '"':
            j = i + 1
            while j < len(line) and line[j] != '"':
                j += 2 if line[j] == "\\" else 1
            out += [("code", line[start:i]), ("string", line[i:j + 1])]
            i = start = j + 1
            continue
        i += 1
    return out + [("code", line[start:])]


def in_code(text, new, stay, aliases):
    def turn(m):
        name = m.group(0)
        if name not in new or name in stay:
            return name
        before = text[:m.start()]
        if before.endswith("#") or before.endswith("·"):
            return name
        if ("-" in name or name in LAWS) and before.endswith("."):
            path = re.search(r"[\w.'-]+$", before).group(0)[:-1] if re.search(r"[\w.'-]+$", before) else ""
            if not (is_own(path) or path in aliases):
                return name
        return new[name]
    return TOKEN.sub(turn, text)


def in_prose(text, new):
    def turn(m):
        name = m.group(0)
        return new[name] if name in new and "-" not in name and name not in LAWS else name
    text = TOKEN.sub(turn, text)
    return re.sub(r"`([^`]*)`", lambda m: "`" + TOKEN.sub(lambda t: new.get(t.group(0), t.group(0)), m.group(1)) + "`", text)


def turned(path, text, new):
    kind = path.suffix
    foreign, aliases = imports(text)
    stay = set(foreign) | (set() if kind == ".antt" else set(LAWS))
    if is_walk(path):
        stay |= declared_in(text)
    if kind == ".md":
        return in_prose(text, new)
    mark = "--" if kind == ".antt" else "//"
    lines = []
    for line in text.split("\n"):
        if kind == ".edit":
            head, colon, rest = line.partition(":")
            lines.append(head + colon + in_code(rest, new, stay, aliases) if head in ("old", "new") else in_prose(line, new))
            continue
        out = ""
        for what, piece in pieces(line, mark):
            out += {"code": lambda p: in_code(p, new, stay, aliases), "string": lambda p: p,
                    "comment": lambda p: in_prose(p, new)}[what](piece)
        lines.append(out)
    return "\n".join(lines)


def together(path, text, new):
    """Bare names of one file's code (of a .rt file: of its clauses) that would fall together."""
    foreign, aliases = imports(text)
    stay = foreign | (declared_in(text) if is_walk(path) else set())
    tokens, in_clause = set(), False
    for line in text.split("\n"):
        if path.suffix == ".rt":
            if re.match(r"\s*(requires|ensures|ghost|decreases)\b", line):
                in_clause = True
            elif re.match(r"^\s*(\{|pub |fn |let |\}|//|use |struct|enum|impl|const|#)", line):
                in_clause = False
                params = re.match(r"\s*(pub )?(extern \"C\" )?fn \w+(.*)", line)
                if params:
                    tokens |= set(re.findall(r"(\w+):", params.group(3)))
            if re.match(r"^\s{4,}\w+: .*,$", line):
                tokens |= set(re.findall(r"^\s*(\w+):", line))
            if not in_clause:
                continue
        for what, piece in pieces(line, "--" if path.suffix == ".antt" else "//"):
            if what == "code":
                for m in TOKEN.finditer(piece):
                    before = piece[:m.start()]
                    if not before.endswith((".", "#", "·")):
                        tokens.add(m.group(0))
    by_new = collections.defaultdict(set)
    for name in tokens:
        by_new[name if name in stay else new.get(name, name)].add(name)
    return {name: olds for name, olds in by_new.items() if len(olds) > 1}


def main():
    top = pathlib.Path(".")
    new = own_names(top)
    files = antt_files(top) + sorted(top.glob("crates/*/src/**/*.rt")) + sorted(top.glob("crates/*/must-fail/*.edit")) \
        + sorted(top.glob("docs/**/*.md")) + [top / "README.md"]
    if "--list" in sys.argv:
        for old in sorted(new):
            print(old, new[old])
        for path in files:
            if path.suffix in (".antt", ".rt"):
                for name, olds in sorted(together(path, path.read_text(), new).items()):
                    print("together:", path, name, *sorted(olds))
        return
    for path in files:
        text = path.read_text()
        after = turned(path, text, new)
        if after != text:
            path.write_text(after)


main()
