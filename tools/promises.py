"""Checks that each promise of docs/PROMISES.md names a public function and clauses of it that stand in the source.

A promise is a row of a table with four cells: the promise, then `crate`, `function`, `clause` (several clauses are
parted by commas, and `-` stands for a lone clause without a name, a law or a type's invariant). A function of a type or a
trait is named with it, as `Type::function`, and a free one by its name alone. Calls of a trait and its ghost members are
public where the trait is, and so is what an impl of a trait has.
"""
import collections
import pathlib
import re
import sys

HEAD = re.compile(r"^(pub(?:\([a-z]+\))? )?(trait|impl|struct|enum|type)\b(.*)$")
MEMBER = re.compile(r"^(?:    )?(pub(?:\([a-z]+\))? )?(?:const )?(?:fn|ghost) (\w+)\b")
CLAUSE = re.compile(r"^ *(?:ensures\*?|requires|ghost)\b")
Function = collections.namedtuple("Function", "owners name is_public contract")


def rows(page):
    """The cells of each promise, with the line that it stands in."""
    for number, line in enumerate(page.read_text().splitlines(), 1):
        cells = [cell.strip() for cell in line.strip().strip("|").split("|")]
        if len(cells) == 4 and re.fullmatch(r"`[a-z]+_[a-z]+`", cells[1]):
            yield number, cells[1].strip("`"), cells[2].strip("`"), re.findall(r"`([^`]+)`", cells[3])


def without_arguments(text):
    """A type without its type arguments."""
    while re.search(r"<[^<>]*>", text):
        text = re.sub(r"<[^<>]*>", "", text)
    return text


def owners_of(kind, rest):
    """The names of an impl's trait and type, or the name of a trait."""
    text = without_arguments(rest.replace("->", "")).split("{")[0].split(" where ")[0]
    return set(re.findall(r"[A-Za-z]\w*", text)) - {"for", "mut", "dyn"} if kind == "impl" else {re.match(r"\s*(\w+)", rest)[1]}


def rest_of(lines):
    """How many more lines the contract has whose function begins here: up to a body, or to a semicolon outside braces."""
    depth = 0
    for at, text in enumerate(lines):
        is_body = depth == 0 and text.endswith("{") and not CLAUSE.match(text)
        depth += text.count("{") - text.count("}")
        if is_body or depth == 0 and text.endswith(";"):
            return at
    return len(lines)


def functions(source):
    """Each function and ghost member of a source, with the text of its contract."""
    lines = source.read_text().splitlines()
    owners, open_to_all = set(), False
    for at, line in enumerate(lines):
        if head := HEAD.match(line):
            if head[2] in ("trait", "impl"):
                whole = " ".join([head[3], *lines[at + 1:at + 16]]).split("{")[0]
                owners = owners_of(head[2], whole)
                open_to_all = head[1] == "pub " if head[2] == "trait" else bool(re.search(r"\bfor\b", without_arguments(whole)))
        elif line == "}":
            owners, open_to_all = set(), False
        if found := MEMBER.match(line):
            inside = line.startswith("    ")
            contract = "\n".join(lines[at:at + 1 + rest_of(lines[at:])])
            yield Function(owners if inside else set(), found[2], found[1] == "pub " or inside and open_to_all, contract)


def aliases(texts):
    """The types that another name stands for."""
    return {name: target for text in texts for name, target in re.findall(r"^pub type (\w+)[^=]*= (\w+)", text, re.M)}


def renamed(owners, also):
    """The other names of these types."""
    return {name for name, target in also.items() if target in owners} | {also[name] for name in owners if name in also}


def fault(named, crate, function, clauses):
    """What is wrong with a row, if anything is."""
    owner, _, name = function.rpartition("::")
    found = [f for f in named if f.name == name]
    own = [f for f in found if (owner in f.owners if owner else not f.owners)]
    if not own:
        return f"{crate} has no {function}" if owner or not found else f"{function} of {crate} is one of a type: name it as Type::{name}"
    if not any(f.is_public for f in own):
        return f"{function} of {crate} is not public"
    for clause in clauses:
        if not any(f.is_public and re.search(r"\bensures\*? " + re.escape(clause) + r" \{", f.contract) for f in own):
            return f"{function} of {crate} has no clause {clause}"
    return None


def main(page, crates):
    wrong = []
    count = 0
    known = {}
    for number, crate, function, clauses in rows(pathlib.Path(page)):
        count += 1
        if crate not in known:
            sources = sorted(pathlib.Path(crates, crate, "src").rglob("*.rt"))
            also = aliases(source.read_text() for source in sources)
            listed = [f for source in sources for f in functions(source)]
            known[crate] = [f._replace(owners=f.owners | renamed(f.owners, also)) for f in listed]
        if text := fault(known[crate], crate, function, clauses):
            wrong.append(f"line {number}: {text}")
    print("\n".join(wrong) or f"promises: {count} rows name clauses that stand in the source")
    return 1 if wrong else 0


sys.exit(main(*sys.argv[1:]))
