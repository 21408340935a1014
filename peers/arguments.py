"""arguments.py KIND N: a table of one row for `juniper_rows`, a text with large arguments; its answer is left open.

Time it with an optimised program: `tools/dev juniper_rows`, `/usr/bin/time -v out/dev/juniper_rows FILE`."""
import sys

SCHEMA = "type Query { l: [Query!] q: Query n(v: [Int]): Int z(v: [[Int]]): Int y(v: I): Int }"
ANSWERS = ["Query.l => [" + ", ".join(["@Query"] * 300) + "]", "Query.q => @Query", *(f"Query.{it} => 1" for it in "nzy")]


def name(number):
    found = ""
    while True:
        found = "abcdefghijklmnopqrstuvwxyz"[number % 26] + found
        number = number // 26 - 1
        if number < 0:
            return found


def given(count):
    return "[" + ",".join(["1"] * count) + "]"


def text(kind, n):
    """The text, and what is given for its variable."""
    ones = "1 " * n
    if kind == "literal":
        return "{ l { n(v: [" + ones + "]) } }", None
    if kind == "variable":
        return "query($v: [Int]) { l { n(v: $v) } }", given(n)
    if kind == "spread":
        return "{" + " ".join(f"{name(it)}: q {{...F}}" for it in range(n)) + "} fragment F on Query { n(v: [" + ones * 8 + "]) }", None
    if kind == "object":
        return "{ y(v: {" + " ".join(f"x{name(it)}: 1" for it in range(n)) + "}) }", None
    if kind == "levels":
        return "query($v: [Int]) {" + "a: n(v: $v) q {" * n + "n(v: $v)" + "}" * n + "}", given(25_000)
    if kind == "uses":
        return "query($v: [Int] = [" + ones + "]) { z(v: [" + "$v " * n + "]) }", None
    if kind == "aliases":
        return "query($v: [Int]) {" + " ".join(f"x{name(it)}: n(v: $v)" for it in range(n)) + "}", given(6 * n)
    raise SystemExit(__doc__)


def main(kind, n):
    written, value = text(kind, n)
    fields = " ".join(f"x{name(it)}: Int" for it in range(n if kind == "object" else 1))
    print("requests", "Large arguments.", "", "schema:", SCHEMA, f"input I {{ {fields} }}", "answers:", *ANSWERS, "rows:", sep="\n")
    if value:
        print(f'variables: {{"v": {value}}}')
    print(written, "=> ?", sep="\n")


main(sys.argv[1], int(sys.argv[2]))
