#!/usr/bin/env python3
"""Prints docs/API.md: each public name of `juniper` by module, with its signature and the first sentence of what its source says. Run at the top of the repository:
python3 tools/api.py > docs/API.md"""
import functools
import glob
import os
import re

HEAD = """# Every name of `juniper`

By module, with its signature and the first sentence of its source, where the rest and the contract stand; methods below their type. `python3 tools/api.py`
makes this page, and the gate compares them.
"""
ITEM = re.compile(r"^pub (?:const fn|fn|struct|enum|trait|const|static|type) (\w+)", re.M)
CLAUSE = re.compile(r"^\s*(?:requires|ensures|ghost)\b")


@functools.cache
def text_of(path):
    with open(path, encoding="utf-8") as file:
        return file.read()


@functools.cache
def sources_of(crate):
    found = []
    for at, _, names in sorted(os.walk(f"crates/{crate}/src")):
        found += [f"{at}/{name}" for name in sorted(names) if name.endswith(".rt")]
    return found


def exports(path):
    """Yields each name that a file exports, with the path before it."""
    for use in re.findall(r"^pub use ([^;]+);", text_of(path), re.M):
        before, _, names = re.sub(r"\s+", " ", use).rpartition("::")
        if "{" in use:
            before, names = re.sub(r"\s+", " ", use).split("::{")
            names = names.rstrip(" }")
        for name in re.split(r",\s*", names.strip(" ,")):
            yield before, name.split(" as ")[-1].strip()


@functools.cache
def home_of(crate, name):
    """Returns the file that defines a name that the crate exports, or None where it is a module."""
    for path in sources_of(crate):
        if any(it[1] == name for it in ITEM.finditer(text_of(path))):
            return path
    for path in sources_of(crate):
        for before, exported in exports(path):
            of = before.split("::")[0]
            if exported == name and of != crate and os.path.isdir(f"crates/{of}"):
                return home_of(of, name)
    return None


def said_before(lines, at):
    """Returns the first sentence of the docstring that ends above a line."""
    found = []
    while at > 0 and re.match(r"\s*(///|#\[|\)\]|#!\[)", lines[at - 1]):
        at -= 1
        if lines[at].strip().startswith("///"):
            found.insert(0, lines[at].strip()[3:].strip())
    whole = " ".join(found)
    return re.split(r"(?<=[.;:])\s", whole)[0].rstrip(".;:") if whole else ""


def head_at(lines, at):
    """Returns an item's signature, without contract and body, in one line."""
    found = []
    for line in lines[at:]:
        if CLAUSE.match(line) or line.strip() == "{":
            break
        found.append(line.strip())
        if re.search(r"([{;]|\{\})\s*$", line):
            break
    one = re.sub(r"\s+", " ", " ".join(found)).strip()
    one = re.sub(r",?\s*(\{\}?|;|where)$", "", one).rstrip(",")
    one = re.sub(r"([(<\[]) | ([)>\]])", lambda it: it[1] or it[2], one)
    return re.sub(r",([)>])", r"\1", one).removeprefix("pub ")


def row(signature, said, inside=False, parts=()):
    return f"{'  ' * inside}- `{signature}`{': ' + said if said else ''}{'; ' + ', '.join(f'`{it}`' for it in parts) if parts else ''}"


def parts_of(lines, at):
    """Returns the variants of an enum, or the public fields of a struct."""
    is_enum = lines[at].startswith("pub enum")
    found, end = [], next(it for it in range(at, len(lines)) if lines[it] == "}" or lines[it].endswith(";"))
    for line in lines[at + 1:end]:
        part = re.match(r"    ([A-Z]\w*)\b" if is_enum else r"    pub (\w+): (.*),$", line)
        if part:
            found.append(part[1] if is_enum else f"{part[1]}: {part[2]}")
    return found


def module_row(name):
    """Returns the row of a module, with the first sentence of its file."""
    for path in sorted(glob.glob(f"crates/*/src/{name}.rt")):
        said = re.match(r"((?://! ?.*\n)+)", text_of(path))
        whole = re.sub(r"\s*//! ?", " ", said[1]).strip() if said else ""
        return row(f"mod {name}", re.split(r"(?<=[.;:])\s", whole)[0].rstrip(".;:"))
    return row(f"mod {name}", "")


def methods_of(crate, name):
    """Yields the public methods of a type, or all of a trait."""
    for path in sources_of(crate):
        lines = text_of(path).split("\n")
        for at, line in enumerate(lines):
            is_trait = re.match(rf"pub trait {name}\b", line)
            if not is_trait and not re.match(rf"impl\b[^{{]*?(?<!for )\b{name}\b", " ".join(lines[at:at + 12]).split("{")[0]):
                continue
            if not is_trait and (not line.startswith("impl") or re.search(r"\bfor\b", head_at(lines, at))):
                continue
            end = next((it for it in range(at, len(lines)) if lines[it] == "}"), at)
            for inner in range(at + 1, end):
                if re.match(r"    pub (?:const )?fn " if not is_trait else r"    fn ", lines[inner]):
                    yield row(head_at(lines, inner), said_before(lines, inner), True)


def rows_of(crate, name):
    path = home_of(crate, name)
    if path is None:
        return [module_row(name)]
    lines = text_of(path).split("\n")
    at = next(it for it, line in enumerate(lines) if (found := ITEM.match(line)) and found[1] == name)
    parts = parts_of(lines, at) if re.match(r"pub (struct|enum)\b.*\{$", lines[at]) else ()
    found = [row(head_at(lines, at), said_before(lines, at), False, parts)]
    if re.match(r"pub (struct|enum|trait)", lines[at]):
        found += methods_of(path.split("/")[1], name)
    return found


def module(title, names):
    print(f"\n## {title}\n")
    for crate, name in sorted(set(names), key=lambda it: (it[1].lower(), it)):
        print("\n".join(rows_of(crate, name)))


def crate_of(before):
    return before.split("::")[0] if before.split("::")[0].startswith("juniper_") else "juniper"


print(HEAD, end="")
module("`juniper`", [(crate_of(before), name) for before, name in exports("crates/juniper/src/lib.rt")])
for part in ("words", "twin", "laws"):
    path = f"crates/juniper/src/{part}.rt"
    own = [("juniper", it[1]) for it in ITEM.finditer(text_of(path))]
    module(f"`juniper::{part}`", own + [(crate_of(before), name) for before, name in exports(path)])
