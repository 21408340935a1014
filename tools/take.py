#!/usr/bin/env python3
"""Copies crates of this repository, with all of its crates that they need, into another repository, or renews them there: python3 tools/take.py TO NAME..

Copied is what a crate has but must-fail/ and out/. In TO's crates.txt the lines that end in MARK are written anew; a crate that such a line names and
that is not needed any more goes. TO/wukanoi has the license, and in TAKEN which commit the crates are of. Crates of the kit are not copied."""
import os
import re
import shutil
import subprocess
import sys

OURS = os.path.dirname(os.path.dirname(os.path.realpath(__file__)))
MARK = "  # taken from Wukanoi"
NOT_TAKEN = ("must-fail", "out")


def stop(why):
    print(f"take.py: {why}", file=sys.stderr)
    sys.exit(2)


def lines_of(top):
    """Returns the lines of a repository's crates.txt, none where there is no such file."""
    if not os.path.isfile(f"{top}/crates.txt"):
        return []
    with open(f"{top}/crates.txt", encoding="utf-8") as file:
        return file.read().splitlines()


def by_name(lines):
    """Returns the lines that list a crate, by the crate's name."""
    heads = {it: it.partition("#")[0].partition(":")[0].split() for it in lines}
    return {head[0]: line for line, head in heads.items() if head}


def needed(names):
    """Returns the lines of these crates and of all below them, by name, in the order of our crates.txt."""
    listed = by_name(lines_of(OURS))
    unknown = [it for it in names if it not in listed]
    if unknown:
        stop(f"there is no crate {', '.join(unknown)}; there are {', '.join(listed)}")
    wanted, left = set(), list(names)
    while left:
        name = left.pop()
        if name in listed and name not in wanted:
            wanted.add(name)
            left += re.split(r"[\s,]+", listed[name].partition("#")[0].partition(":")[2])
    return {name: line for name, line in listed.items() if name in wanted}


def commit():
    """Returns which commit of ours is copied, and whether its files were changed since."""
    if not os.path.exists(f"{OURS}/.git"):
        return "unknown: the source is no clone"
    git = ["git", "-C", OURS]
    head = subprocess.run([*git, "rev-parse", "HEAD"], check=True, capture_output=True, text=True).stdout.strip()
    changes = subprocess.run([*git, "status", "--porcelain", "crates", "crates.txt"], check=True, capture_output=True, text=True).stdout
    return f"{head}, with changes that are not committed" if changes else head


def copy(name, to):
    """Puts our files of a crate in the place of those that stand in the folder, but for out/."""
    os.makedirs(to, exist_ok=True)
    for it in os.listdir(to):
        if it != "out":
            remove(f"{to}/{it}")
    for it in os.listdir(f"{OURS}/crates/{name}"):
        source = f"{OURS}/crates/{name}/{it}"
        if os.path.isdir(source) and it not in NOT_TAKEN:
            shutil.copytree(source, f"{to}/{it}")
        elif os.path.isfile(source):
            shutil.copy(source, f"{to}/{it}")


def remove(path):
    shutil.rmtree(path) if os.path.isdir(path) and not os.path.islink(path) else os.remove(path)


def main(to, names):
    if not os.path.isdir(to):
        stop(f"{to} is no folder")
    to = os.path.realpath(to)
    if f"{to}/".startswith(f"{OURS}/"):
        stop(f"{to} lies in this repository: name the folder of another one")
    lines = needed(names)
    before = lines_of(to)
    own = [it for it in before if not it.endswith(MARK)]
    taken = by_name(it for it in before if it.endswith(MARK))
    clashes = [it for it in lines if it in by_name(own) or it not in taken and os.path.lexists(f"{to}/crates/{it}")]
    if clashes:
        stop(f"{to} has crates of these names that were not taken from here: {', '.join(clashes)}; rename them first")
    gone = [it for it in taken if it not in lines]
    written = [it.partition("#")[0].rstrip() + MARK for it in lines.values()]
    with open(f"{to}/crates.txt", "w", encoding="utf-8") as file:
        file.writelines(f"{it}\n" for it in [*own, *written])
    for name in lines:
        copy(name, f"{to}/crates/{name}")
    for name in gone:
        if os.path.isdir(f"{to}/crates/{name}"):
            remove(f"{to}/crates/{name}")
    os.makedirs(f"{to}/wukanoi", exist_ok=True)
    shutil.copy(f"{OURS}/LICENSE", f"{to}/wukanoi/LICENSE")
    told = f"asked for: {' '.join(names)}\ncommit: {commit()}\n"
    with open(f"{to}/wukanoi/TAKEN", "w", encoding="utf-8") as file:
        file.write(told)
    print(f"crates: {len(lines)}" + (f"; removed: {', '.join(gone)}" if gone else "") + f"\n{told}", end="")


if len(sys.argv) < 3:
    stop("give a folder and the crates to take: python3 tools/take.py TO NAME..")
main(sys.argv[1], sys.argv[2:])
