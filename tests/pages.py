#!/usr/bin/env python3
"""Checks the pages that list what the sources have, and lists public items and wrong bodies.

    tests/pages.py                     ends with status 1 if a wrong body doesn't say what it
                                       stands for, if docs/SAFE_AND_TOTAL.md lacks a public function
                                       that requires something, if an option of fontshape is in its
                                       manual or README no more, or if a wrong rule of tests/rules
                                       or a wrong body of tests/wrong-bodies can't be planted
    tests/pages.py --edits [CRATE ..]  prints the wrong bodies of these crates, or of all, in the
                                       gate or at night, and what each stands for
    tests/pages.py --index [CRATE ..]  prints the public items of these libraries, or of all, lowest
                                       crate first

An item is public if every module on its path is, or if a `pub use` of such a module names it.
Crates of tests and of benches are left out, and so are programs.
"""

import re
import sys
import textwrap
from pathlib import Path

ROOT = Path(__file__).resolve().parent.parent
SAFE_AND_TOTAL = ROOT / "docs" / "SAFE_AND_TOTAL.md"
YARD = re.compile(r"^(test|bench)_|_(tests|bench)$|^test_fixtures$|^unlawful_search$")
ITEM = re.compile(r"(pub )?(?:const )?(?:unsafe )?"
                  r"(fn|struct|enum|trait|const|static|type|mod) (\w+)")
HEAD = """# Public items, by library

Items stand under the module that a caller names, with the first sentence of their documentation
and the names of their methods. What each promises stands in its contract.
"""
# The most constants of a module that are listed one by one.
FEW = 8


class Item:
    def __init__(self, kind, name, doc):
        self.kind, self.name, self.doc, self.members = kind, name, doc, []


class Module:
    """A module: its items, the names that it shows by `pub use`, and its modules with whether each
    is public."""

    def __init__(self, doc):
        self.doc, self.items, self.shown, self.children = doc, [], [], []


def first_sentence(lines):
    text = " ".join(line.strip() for line in lines)
    end = re.search(r"[.:](?: (?=[A-Z`\[])|$)", text)
    text = text[: end.start()] if end else text
    text = re.sub(r"\[(`[^`]*`)\](\([^)]*\))?", r"\1", text)
    return re.sub(r"  +", " ", text)


def names_of_use(statement):
    """The names that `a::{b, c as d}` shows."""
    inner = re.search(r"\{(.*)\}", statement, re.S)
    parts = inner.group(1).split(",") if inner else [statement]
    names = []
    for part in parts:
        part = part.strip()
        if part:
            path, _, alias = part.partition(" as ")
            names.append((path.split("::")[-1].strip(), alias.strip()))
    return names


def read(path, methods):
    """The module of a file. Methods of its types go into `methods`, by the name of the type."""
    lines = path.read_text().split("\n")
    head = [line[3:].strip() for line in lines if line.startswith("//!")]
    blank = head.index("") if "" in head else len(head)
    module = Module(first_sentence(head[:blank]))
    doc, hidden, owner, at = [], False, None, 0
    while at < len(lines):
        line = lines[at]
        at += 1
        bare = line.strip()
        if bare.startswith("///"):
            doc.append(bare[3:])
            continue
        if bare.startswith("#["):
            hidden |= "cfg(test)" in bare
            continue
        if line.startswith("pub use "):
            while ";" not in line:
                line += " " + lines[at].strip()
                at += 1
            module.shown.append(line[len("pub use "):].split(";")[0])
        elif line.startswith("impl"):
            while "{" not in re.sub(r"⟦.*?⟧", "", line):
                line += " " + lines[at].strip()
                at += 1
            named = re.match(r"impl(?:<.*?>)? (\w+)(?:<[^{]*>)? *(?:where.*)?\{", line)
            inherent = named and " for " not in line.split("{")[0]
            owner = methods.setdefault(named.group(1), []) if inherent else None
        elif line.startswith("}"):
            owner = None
        else:
            found = ITEM.match(bare) if line[:1].strip() or line.startswith("    ") else None
            if found and not hidden:
                public, kind, name = found.groups()
                top = not line.startswith(" ")
                if top and kind == "mod":
                    if bare.endswith(";"):
                        module.children.append((bool(public), name))
                elif top and public:
                    module.items.append(Item(kind, name, first_sentence(doc)))
                    if kind == "trait":
                        owner = module.items[-1].members
                        while "{" not in line and not line.endswith("}"):
                            line = lines[at]
                            at += 1
                        if line.rstrip().endswith("{}"):
                            owner = None
                elif (owner is not None and kind in ("fn", "const")
                      and not line.startswith("     ")):
                    if public or owner is module.items[-1].members if module.items else public:
                        owner.append(name)
        if bare and not bare.startswith("///"):
            doc, hidden = [], False
    return module


def modules_of(crate):
    """The modules of a crate by path, whether each is public, and the methods of its types."""
    methods, found = {}, {}

    def walk(path, folder, name, public):
        module = read(path, methods)
        found[name] = (public, module)
        for child_public, child in module.children:
            child_path = folder / f"{child}.rt"
            if child_path.exists():
                inner = f"{name}::{child}" if name else child
                walk(child_path, folder / child, inner, public and child_public)

    source = ROOT / "crates" / crate / "src"
    walk(source / "lib.rt", source, "", True)
    return found, methods


def wrapped(text, indent):
    return textwrap.fill(text, 118, initial_indent=indent + "- ", subsequent_indent=indent + "  ",
                         break_long_words=False, break_on_hyphens=False)


def entry(item, methods):
    members = item.members + methods.get(item.name, [])
    line = f"{item.kind} `{item.name}`" + (f": {item.doc}" if item.doc else "")
    lines = [wrapped(line, "")]
    if members:
        lines.append(wrapped(", ".join(f"`{name}`" for name in dict.fromkeys(members)), "  "))
    return lines


def section(crate):
    found, methods = modules_of(crate)
    own = {item.name: item for _, module in found.values() for item in module.items}
    private = {item.name for public, module in found.values() if not public
               for item in module.items}
    lines = [f"## `{crate}`", "", textwrap.fill(found[""][1].doc + ".", 118), ""]
    for name, (public, module) in found.items():
        if not public:
            continue
        items, others = list(module.items), []
        for statement in module.shown:
            for shown, alias in names_of_use(statement):
                if shown in private:
                    items.append(own[shown])
                elif shown not in own or name == "":
                    others.append(alias or shown)
        if not items and not others:
            continue
        if name:
            lines += [f"### `{crate}::{name}`", ""]
        named = items
        if not name.endswith("worked"):
            named = [item for item in items if item.kind == "const"]
            named = named if len(named) > FEW else []
        for item in items:
            if item not in named:
                lines += entry(item, methods)
        if named:
            names = ", ".join(f"`{item.name}`" for item in named)
            lines.append(wrapped(f"{named[0].kind} {names}", ""))
        if others:
            names = ", ".join(f"`{other}`" for other in dict.fromkeys(others))
            lines.append(wrapped(f"shown here too: {names}", ""))
        lines.append("")
    return lines


def page(wanted):
    """The public items of the libraries that are wanted, or of all."""
    listed = [line.split(":")[0].split()[0]
              for line in (ROOT / "crates.txt").read_text().split("\n")
              if ":" in line and not line.startswith("#")]
    lines = [HEAD]
    for crate in listed:
        is_library = (ROOT / "crates" / crate / "src" / "lib.rt").exists()
        if is_library and (crate in wanted or not wanted and not YARD.search(crate)):
            lines += section(crate)
    return "\n".join(lines).rstrip("\n") + "\n"


def crate_of(edit):
    """The crate of a wrong body."""
    return edit.relative_to(ROOT).parts[1 if edit.parent.name == "must-fail" else 2]


def edits(wanted=()):
    """The wrong bodies of the crates that are wanted, or of all, in the gate or at night: crate,
    name, and what the body stands for, empty if it doesn't say so."""
    files = [*ROOT.glob("crates/*/must-fail/*.edit"), *ROOT.glob("tests/wrong-bodies/*/*.edit")]
    for file in sorted(files, key=lambda it: (crate_of(it), it.stem)):
        crate = crate_of(file)
        if not wanted or crate in wanted:
            said = re.match(r"stands for: (.+)\n", file.read_text())
            yield crate, file.stem, said[1] if said else ""


# A library that serves a program of trials alone.
LEFT_OUT = {"shape_sessions"}


def code_of(file):
    """The lines of a file without comments and without modules of tests."""
    return [line.split("//")[0] for line in file.read_text().splitlines()]


def modules_with_files(root, path=()):
    """Each module of a crate: its path, its file, and whether all on the way to it are public."""
    found = [(path, root, True)]
    lines = code_of(root)
    base = root.parent if root.name in ("lib.rt", "main.rt") else root.parent / root.stem
    for before, line in zip([""] + lines, lines):
        match = re.match(r"(pub(?:\([^)]*\))? )?mod (\w+);", line)
        if match and "cfg(test)" not in before:
            file = base / f"{match[2]}.rt"
            if file.exists():
                public = match[1] == "pub "
                below = modules_with_files(file, path + (match[2],))
                found += [(inner, inner_file, public and inner_public)
                          for inner, inner_file, inner_public in below]
    return found


def reexported(files):
    """The names that some `pub use` of the crate brings out."""
    names = set()
    for file in files:
        for clause in re.findall(r"^pub use ([^;]+);", "\n".join(code_of(file)), re.M):
            names |= set(re.findall(r"\w+", clause))
    return names


def contract_of(lines, at):
    """What stands between a function's name and its body."""
    text = ""
    for line in lines[at:]:
        clause = "requires" in line or "ensures" in line
        if re.match(r"^ *(\{|\{\}|\}) *$", line) or (line.rstrip().endswith("{") and not clause):
            return text
        text += line + "\n"
        if line.rstrip().endswith(";"):
            return text
    return text


def conditions(crate):
    """The public functions of a crate that ask something: module, name, first condition."""
    root = ROOT / "crates" / crate / "src/lib.rt"
    all_modules = modules_with_files(root)
    names = reexported([file for _, file, _ in all_modules])
    for path, file, public in all_modules:
        lines, inside = code_of(file), None
        for at, line in enumerate(lines):
            if re.match(r"(pub )?(trait|impl)\b", line):
                inside = line
            elif line.startswith("}"):
                inside = None
            match = re.match(r"^( *)(pub )?fn (\w+)", line)
            if not match or not (match[2] or (inside and re.match(r"pub trait\b", inside))):
                continue
            name = match[3]
            shown = bool(inside and names & set(re.findall(r"\w+", inside)))
            reached = public or name in names or shown
            text = contract_of(lines, at)
            asked = re.search(r"\brequires\b ?(\w+)? ?\{ ?(.*)", text)
            if reached and asked:
                yield path, name, asked[2].removesuffix("}").strip()


def lacking_conditions():
    """The public functions with a `requires` that docs/SAFE_AND_TOTAL.md doesn't name, in a code
    span by themselves, with their path, or as `module::*`."""
    spans = re.findall(r"`([^`]+)`", SAFE_AND_TOTAL.read_text())
    named = {span.split("::")[-1].split("(")[0] for span in spans}
    wholes = {span.split("::")[-2] for span in spans if span.endswith("::*")}
    lines = (ROOT / "crates.txt").read_text().splitlines()
    crates = sorted(line.split(":")[0].split()[0] for line in lines
                    if line.strip() and not line.startswith("#"))
    for crate in crates:
        library = ROOT / "crates" / crate / "src/lib.rt"
        if YARD.search(crate) or crate in LEFT_OUT or not library.exists():
            continue
        for path, name, asked in conditions(crate):
            if name not in named and not wholes & ({crate} | set(path)):
                yield f"{'::'.join((crate,) + path)}::{name}: {asked}"


def is_stale(plant, root):
    """Whether an old text of these edits doesn't stand exactly once in its file."""
    texts = {}
    for line in plant.read_text().splitlines():
        key, _, value = line.partition(": ")
        if key == "file":
            file = value
            texts.setdefault(file, (root / file).read_text())
        elif key == "old":
            old = value
            if texts[file].count(old) != 1:
                return True
        elif key == "new":
            texts[file] = texts[file].replace(old, value)
    return False


def stale_plants():
    """The wrong rules and the wrong bodies of the night that can't be planted."""
    for plant in sorted(ROOT.glob("tests/rules/*.plant")):
        if is_stale(plant, ROOT):
            yield f"tests/rules/{plant.name}"
    for body in sorted(ROOT.glob("tests/wrong-bodies/*/*.edit")):
        if is_stale(body, ROOT / "crates" / body.parent.name):
            yield f"tests/wrong-bodies/{body.parent.name}/{body.name}"


def lacking_options():
    """The options of `fontshape` that its manual or its README doesn't name."""
    folder = ROOT / "crates" / "fontshape"
    options = re.findall(r'Choice\(\s*"([a-z0-9-]+)"', (folder / "src" / "command.rt").read_text())
    pages = {"fontshape.1": (folder / "fontshape.1").read_text().replace("\\-", "-"),
             "README.md": (folder / "README.md").read_text()}
    return [f"crates/fontshape/{page} lacks --{option}" for page, text in pages.items()
            for option in options if not re.search(rf"--{option}(?![\w-])", text)]


def check():
    """What is stale, a line each."""
    stale = [f"{name}.edit of {crate} begins with no line 'stands for: ..'"
             for crate, name, said in edits() if not said]
    stale += [f"docs/SAFE_AND_TOTAL.md lacks {line}" for line in lacking_conditions()]
    stale += lacking_options()
    stale += [f"{file}: its old text doesn't stand once" for file in stale_plants()]
    return stale


def main():
    if sys.argv[1:2] == ["--index"]:
        print(page(sys.argv[2:]), end="")
        return 0
    if sys.argv[1:2] == ["--edits"]:
        for crate, name, said in edits(sys.argv[2:]):
            print(f"{crate} {name}: {said}")
        return 0
    stale = check()
    print("\n".join(stale) if stale else "pages: up to date")
    return 1 if stale else 0


if __name__ == "__main__":
    sys.exit(main())
