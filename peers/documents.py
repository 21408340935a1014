"""Texts over the schema of `juniper_bench`: `python3 peers/documents.py KIND N` prints the one of a kind and a size."""
import sys


def fragment(i, spreads):
    return f"fragment F{i} on Node {{ id{spreads} }}\n"


def plain(count, first=lambda i: 1):
    """Fields five levels deep, one meaning for each response key."""
    below = lambda i: f" f{i}: first {{ id others(first: {first(i)}) {{ parent {{ id }} }} }}\n"
    return "{" + "".join(map(below, range(count // 5))) + "}"


def linked(count, spreads):
    """A chain of fragments, each of which has what spreads the next."""
    return "{ first { ...F0 } }\n" + "".join(fragment(i, spreads(i + 1) if i + 1 < count else "") for i in range(count))


KINDS = {
    "plain": plain,
    "meanings": lambda n: plain(n, lambda i: i % 100),
    "set": lambda n: "{ first {" + "".join(f" ...F{i}" for i in range(n)) + " } }\n" + "".join(fragment(i, "") for i in range(n)),
    "chain": lambda n: linked(n, lambda i: f" ...F{i}"),
    "twice": lambda n: linked(n, lambda i: f" a: __typename ...F{i} ...F{i}"),
    "key": lambda n: "{ first {" + " id\n" * n + "} }",
}

if __name__ == "__main__":
    print(KINDS[sys.argv[1]](int(sys.argv[2])), end="")
