"""The contracts stay readable: what several functions say is a word. A clause that is more than a word, one definition applied
to what the function has, stands word for word at no more than five functions. A function of a crate's own, which is neither
public nor a method of a trait, has at most ten clauses. A public one promises at most nine things, and has at most twelve
clauses with what it asks for: `distribute`, `open` and `run_kept` ask for three to five. A method of a trait may have more,
since its clauses stand in the place of the trait's, and so may a law, of which each clause is a statement by itself."""
import collections
import pathlib
import re
import sys

MOST_FUNCTIONS, MOST_OWN, MOST_PROMISES, MOST_PUBLIC = 5, 10, 9, 12
FUNCTION = re.compile(r"^(?P<indent> *)(?P<visibility>pub(?:\([a-z]+\))? )?(?:unsafe )?(?:extern \"C\" )?fn (?P<name>\w+)", re.M)
CLAUSE = re.compile(r"\s*(?P<kind>ensures|requires)\s*(?:\w+\s*)?\{")
BLOCK = re.compile(r"^(?:unsafe )?(?P<head>(?:pub )?trait |impl)(?P<rest>[^{]*)\{", re.M)
WORD = re.compile(r"[\w.' ()⟦⟧<>,]+")


def closing(text, start):
    """The place behind the brace that closes the one before `start`."""
    depth = 1
    while depth:
        depth += {"{": 1, "}": -1}.get(text[start], 0)
        start += 1
    return start


def clauses_of(text, place):
    """The clauses of the function whose name ends at `place`, each its kind and its text."""
    found, depth = [], 0
    while True:
        clause = CLAUSE.match(text, place) if depth == 0 else None
        if clause:
            place = closing(text, clause.end())
            found.append((clause["kind"], " ".join(text[clause.end() : place - 1].split())))
        elif depth == 0 and text[place] in "{;":
            return found
        else:
            depth += {"(": 1, "[": 1, ")": -1, "]": -1}.get(text[place], 0)
            place += 1


def has_too_many(path, text, function, kinds):
    """Whether the function has more clauses than one of its sort may."""
    if is_method_of_trait(text, function) or path.name == "laws.rt":
        return False
    if function["visibility"] != "pub ":
        return len(kinds) > MOST_OWN
    return kinds.count("ensures") > MOST_PROMISES or len(kinds) > MOST_PUBLIC


def is_method_of_trait(text, function):
    """Whether the function stands in a trait, or in an `impl` of one."""
    if not function["indent"]:
        return False
    block = [head for head in BLOCK.finditer(text) if head.start() < function.start()][-1]
    return "trait" in block["head"] or " for " in block["rest"]


root = pathlib.Path(__file__).resolve().parent.parent
places, faults = collections.defaultdict(list), []
for path in sorted(root.glob("crates/*/src/**/*.rt")):
    text = path.read_text()
    for function in FUNCTION.finditer(text):
        clauses = clauses_of(text, function.end())
        for _kind, clause in clauses:
            places[clause].append(f"{path.relative_to(root).parts[1]} {function['name']}")
        if has_too_many(path, text, function, [kind for kind, _clause in clauses]):
            faults.append(f"{path.relative_to(root)}: {function['name']} has {len(clauses)} clauses")
words = 0
for clause, functions in places.items():
    if len(functions) <= MOST_FUNCTIONS:
        continue
    if WORD.fullmatch(clause):
        words += 1
    else:
        faults.append(f"{len(functions)} functions say: {clause} ({', '.join(functions)})")
for fault in faults:
    print(f"contracts: {fault}")
clauses = sum(map(len, places.values()))
print(f"contracts: {clauses} clauses, {words} words at more than {MOST_FUNCTIONS} functions, {len(faults)} to mend")
sys.exit(bool(faults))
