"""Texts that are made to cost much, over the demo's schema: `python3 peers/texts.py KIND N` prints the one of a kind and a size.

Most are hardly executed: what matters is what their validation costs."""
import random
import sys

SKIPPED = "{ id ...T @skip(if: true) } fragment T on Query { "
APART = "... on Human { x: name } ... on Droid { x: secret }"
# One response key with two meanings, which never meet.
DIRT = "d1: hero { x: name } d2: hero { x: secret } "


def each(count, text):
    return " ".join(text(i) for i in range(count))


def lines(count, text):
    return "".join(text(i) + "\n" for i in range(count))


def chain(count, name, body, end):
    """Fragments on Character, each with a body that may name the next, and the last."""
    return lines(count, lambda i: f"fragment {name}{i} on Character {{ {body(i) if i + 1 < count else end} }}")


def linked(name):
    return lambda i: f"id a: friends {{ ...{name}{i + 1} }} ...{name}{i + 1}"


def one_chain(count, end, first="", more="", body=linked("F")):
    return SKIPPED + f"hero {{ {first}...F0 }} {more}}}\n" + chain(count, "F", body, end)


def two_chains(count, first, second):
    return (SKIPPED + f"{first}: hero {{ ...F0 }} {second}: hero {{ ...G0 }} }}\n"
            + chain(count, "F", linked("F"), "id x: name") + chain(count, "G", linked("G"), "id x: secret"))


def mixed(count, own):
    """Sets that spread fifty of twenty-five fragments."""
    chosen = random.Random(1)
    names = "ABCDEFGHIJKLMNOPQRSUVWXYZ"
    sets = each(count, lambda i: f"k{i}: hero {{ {each(50, lambda _: '...' + chosen.choice(names))} }}")
    fragments = "".join(f"fragment {name} on Character {{ {own(i)} }}\n" for i, name in enumerate(names))
    return SKIPPED + f"d: hero {{ x: secret a0: friends {{ x: secret }} }} {sets} }}\n" + fragments


KINDS = {
    "chained": lambda n: one_chain(n, "id"),
    "unlike": lambda n: one_chain(n, "id", first=APART + " "),
    "bottom": lambda n: one_chain(n, "id " + APART),
    "two": lambda n: one_chain(n, "id " + APART, first="k1: friends { z: id } k2: friends { z: name } ",
                               body=lambda i: linked("F")(i) + f" b: friends {{ ...F{i + 1} }}"),
    "apart_below": lambda n: one_chain(n, "id ... on Human { y: friends { x: name } } ... on Droid { y: friends { x: secret } }"),
    "refused": lambda n: one_chain(n, "id x: name x: secret"),
    "two_chains": lambda n: two_chains(n, "a", "b"),
    "two_chains_refused": lambda n: two_chains(n, "a", "a"),
    "halves_refused": lambda n: "{ " + " ".join("d1: hero { " + each(n, lambda i: f"a: friends {{ k{i}: id x: {end} }}") + " }"
                                               for end in ("name", "secret")) + " }",
    "apart": lambda n: "{ " + each(n, lambda i: f"hero {{ ... on Droid {{ x: name a{i}: friends {{ id }} }} ... on Human {{ x: secret }} }}") + " }",
    "plus": lambda n: "{ " + each(n, lambda i: f"k: number(plus: {i})") + " }",
    "sets": lambda n: SKIPPED + each(n, lambda i: "hero { id friends { id } }") + " }",
    "sets_dirty": lambda n: SKIPPED + DIRT + each(n, lambda i: "hero { id friends { id x: name } }") + " }",
    "sets_alias_dirty": lambda n: SKIPPED + DIRT + each(n, lambda i: f"hero {{ id friends {{ id x: name k{i}: id }} }}") + " }",
    "small_dirty": lambda n: SKIPPED + DIRT + "hero { " + "".join(f"a:friends{{k{i}:id x:name}}" for i in range(n)) + " } }",
    "parity": lambda n: one_chain(n, "id", body=lambda i: f"x: {'name' if i % 2 else 'secret'} a: friends {{ ...F{i + 1} }} b: friends {{ ...F{i + 1} }}"),
    "spread_all": lambda n: SKIPPED + DIRT + "hero { " + each(n, lambda i: f"...F{i}") + " } }\n"
    + lines(n, lambda i: f"fragment F{i} on Character {{ k{i}: id a: friends {{ x: name }} }}"),
    "key_chain": lambda n: one_chain(n, "id", more=DIRT, body=lambda i: f"k{i}: id ...F{i + 1}"),
    "one_key_chain": lambda n: one_chain(n, "id", body=lambda i: f"k0: friends {{ {APART} m{i}: id }} ...F{i + 1}"),
    "fan": lambda n: SKIPPED + each(n, lambda i: f"f{i}: hero {{ ...F k7: id }}") + " }\nfragment F on Character { "
    + each(8, lambda j: f"p{j}: friends {{ id j3: name }}") + " }\n",
    "mixed": lambda n: mixed(n, lambda i: f"x: name a{i}: friends {{ x: name }}"),
    "ids": lambda n: SKIPPED + each(n, lambda i: "id") + " }",
    "keys": lambda n: SKIPPED + DIRT + each(n, lambda i: f"k{i}: id") + " }",
    "ring": lambda n: "{ id } " + lines(n, lambda i: f"fragment F{i} on Query {{ id ...F{(i + 1) % n} }}"),
    "self_beside_chain": lambda n: "{ ...F0 } fragment X on Query { ...X }\n"
    + lines(n, lambda i: f"fragment F{i} on Query {{ {f'...F{i + 1}' if i + 1 < n else 'id'} }}"),
    "operations": lambda n: lines(n, lambda i: f"query Q{i} {{ ...F0 }}")
    + lines(n, lambda i: f"fragment F{i} on Query {{ {f'...F{i + 1}' if i + 1 < n else 'id'} }}"),
}

if __name__ == "__main__":
    print(KINDS[sys.argv[1]](int(sys.argv[2])), end="")
