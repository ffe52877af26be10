"""The sources as checks of the documents read them: functions with their clauses, and names that are declared."""
import functools
import pathlib
import re

TOP = pathlib.Path(__file__).resolve().parent.parent
CRATES = TOP / "crates"

FUNCTION = re.compile(r"( *)(?:pub(?:\(\w+\))? )?(?:const )?fn (\w+)")
CLAUSE = re.compile(r" *ensures\*? (?:(\w+) )?\{")
ITEM = re.compile(r" *(?:pub(?:\(\w+\))? )?(?:struct|enum|trait|type|const) (\w+)|    ([A-Z]\w*)[,({]")
DEFINITION = re.compile(r" *(?:(?:abbrev|unfoldable|pub|record|data) )*([^\W\d]\w*)\b.* : ")


@functools.cache
def crates():
    """The crates of the repository in the order of crates.txt, each with those that it uses."""
    lines = (line.split("#")[0] for line in (TOP / "crates.txt").read_text().splitlines())
    return {line.split()[0].strip(":"): line.split(":")[1].split() for line in lines if ":" in line}


def crate_names():
    return list(crates())


def lines_of(crate, part, ending):
    for path in sorted((CRATES / crate / part).rglob(f"*.{ending}")):
        yield from path.read_text().splitlines()


def owner_of(line):
    """The type or trait that the functions of a block are of: `impl<T> Model for Log<T>` is of Log."""
    while line != (line := re.sub(r"<[^<>]*>", "", line)):
        pass
    words = re.findall(r"\w+", line.split(" for ")[-1].split(":")[0].split("where")[0])
    return [word for word in words if word not in ("impl", "pub", "trait", "dyn")][0]


@functools.cache
def functions_of(crate):
    """The functions of a crate, each with the names of its clauses: by its name, and with its type's, as `Log::push`."""
    found, owner, names = {}, None, []
    for line in lines_of(crate, "src", "rt"):
        if re.match(r"(pub )?(impl|trait)\b", line):
            owner = owner_of(line)
        elif line.startswith("}"):
            owner = None
        elif began := FUNCTION.match(line):
            inside, name = began.groups()
            names = [name, f"{owner}::{name}"] if owner and inside else [name]
            for name in names:
                found.setdefault(name, set())
        elif (clause := CLAUSE.match(line)) and clause[1]:
            for name in names:
                found[name].add(clause[1])
    return found


@functools.cache
def names_of(crate):
    """All that is declared in a crate: functions, clauses, types, variants, constants, and the definitions with their fields."""
    names = set(functions_of(crate)).union(*functions_of(crate).values())
    for line in lines_of(crate, "src", "rt"):
        if found := ITEM.match(line):
            names.add(found[1] or found[2])
    for line in lines_of(crate, "specs", "antt"):
        if found := DEFINITION.match(line):
            names.add(found[1])
    return names
