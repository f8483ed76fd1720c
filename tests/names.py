"""A name of a definition means one thing: fails where one is declared in two places of specs/ with other bodies, and lists
each of them.

    python3 tests/names.py
"""
import collections
import pathlib
import re

CRATES = pathlib.Path(__file__).resolve().parent.parent / "crates"
DECLARED = re.compile(r"(?:abbrev |opaque )?pub (?:record |data )?([^\s(:{]+)")


def definitions(path):
    """The names that a module declares, each with its body on one line."""
    for block in re.split(r"\n\s*\n", path.read_text()):
        body = " ".join(line for line in block.splitlines() if not line.startswith("--"))
        found = DECLARED.match(body)
        if found and found[1] != "mod":
            yield found[1], " ".join(body.split())


def main():
    meanings = collections.defaultdict(dict)
    for path in sorted(CRATES.glob("*/specs/**/*.antt")):
        if "declared" not in path.parts:
            for name, body in definitions(path):
                meanings[name].setdefault(body, path.relative_to(CRATES))
    several = {name: places for name, places in meanings.items() if len(places) > 1}
    for name, places in sorted(several.items()):
        print(f"{name}: {', '.join(map(str, places.values()))}")
    print(f"names: {len(meanings)} in specs, {len(several)} with several meanings")
    if several:
        raise SystemExit("names: FAILED")


main()
