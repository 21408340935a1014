"""What `tools/dev` and `tools/prove` share: the kit, its commands, and the crates of the repository that they are called in."""
import importlib.machinery
import importlib.util
import os
import shutil
import subprocess
import sys


def stop(why):
    print(f"{os.path.basename(sys.argv[0])}: {why}", file=sys.stderr)
    sys.exit(2)


def commands():
    """Returns the kit's own module on crates, by which `rt` composes the words of its commands."""
    if not shutil.which("rt"):
        stop("the kit's command rt is not on PATH")
    page = subprocess.run(["rt", "doc"], check=True, capture_output=True, text=True).stdout.strip()
    file = f"{os.path.dirname(page)}/bin/rtlib.py"
    loader = importlib.machinery.SourceFileLoader("rtlib", file)
    made = importlib.util.module_from_spec(importlib.util.spec_from_loader("rtlib", loader))
    sys.dont_write_bytecode = True
    sys.modules["rtlib"] = made
    loader.exec_module(made)
    return made


def top():
    """Returns the top of the repository that the current folder lies in."""
    at = os.getcwd()
    while not os.path.isfile(f"{at}/crates.txt"):
        if at == os.path.dirname(at):
            stop("no crates.txt here or above: call this within a repository")
        at = os.path.dirname(at)
    return at


def crate(rt, name):
    """Returns a crate of that repository."""
    root = top()
    known = [it["name"] for it in rt.listed(root).values()]
    if name not in known:
        stop(f"crates.txt has no {name}; it has {', '.join(known)}")
    return rt.Crate(f"{root}/crates/{name}", root, {})
