"""What the tables of the documents list is what stands in the sources: keys, commands, options, texts, statuses and limits."""
import re

from sources import CRATES, TOP, crate_names, crates

SPAN = re.compile(r"`([^`]+)`")
CONSTANT = re.compile(r"^(?:pub const ((?:MAX|MOST)_\w+|\w+_MILLIS)|const (MAX_COUNT)): \w+ = ([\d_]+);", re.MULTILINE)
# the faces of the page of the protocol, by their names in the sources
FACES = {
    "text": "Default", "rows below the last line": "BufferPadding", "the main selection": "PrimarySelection",
    "another selection": "SecondarySelection", "the cursor of any selection, on a character": "PrimaryCursor",
    "the cursor of any selection, on a newline": "PrimaryCursorEol", "mode line, text of the prompt, what `echo` said": "StatusLine",
    "name of the prompt": "Prompt", "cursor of the prompt": "StatusCursor", "what went wrong": "Error",
    "the box, its title and its lines": "Information", "the numbers of lines": "LineNumbers",
    "the number of the main cursor's line, with `-hlcursor`": "LineNumberCursor", "the signs of `show-whitespaces`": "Whitespace",
}


def run(_program, report):
    for checks in (normal_keys, other_modes, key_names, registers, commands, expansions, options, status_texts, refusals, statuses, faces, limits, layers):
        checks(report)


def page(name):
    return (TOP / "docs" / name).read_text()


def source(path):
    return (CRATES / path).read_text()


def body(path, function):
    """The body of a function of a source."""
    return re.search(rf"fn {function}\b.*?\n\}}\n", source(path), re.DOTALL)[0]


def rows(name, section, head):
    """The rows of the tables under a heading whose first cell is this one; the cells of each."""
    text = re.search(rf"^(#+) {re.escape(section)}\n(.*?)(?=^#{{1,2}} |\Z)", page(name), re.MULTILINE | re.DOTALL)[2]
    found, inside = [], False
    for line in text.splitlines():
        cells = [cell.strip().replace(r"\|", "|") for cell in re.split(r"(?<!\\)\|", line)[1:-1]]
        inside = bool(cells) and (inside or cells[0] == head)
        if inside and cells[0] != head and set(cells[0]) != {"-"}:
            found.append(cells)
    return found


def spans(cell):
    """What a cell names between grave marks."""
    return SPAN.findall(cell)


def agree(report, what, documented, coded):
    """Both sides have entries, and the same ones."""
    report.check(f"{what}: both sides have some", (True, True), (bool(documented), bool(coded)))
    report.check(f"{what}: the documents lack none of the sources", [], sorted(set(coded) - set(documented)))
    report.check(f"{what}: the sources lack none of the documents", [], sorted(set(documented) - set(coded)))


def arms(text, of=r"'(.)'"):
    """What stands before the arrows of a `match`, aside from arms that do nothing."""
    return [found for line in text.splitlines() if " => " in line for found in re.findall(of, line.split(" => ")[0])]


def normal_keys(report):
    """docs/KEYS.md has a row for each key of normal mode, each place and each object."""
    actions = "normal_keys/src/actions.rt"
    keys = ["0", "9"]
    keys += [key for c in arms(body(actions, "letter_action")) for key in (c, c.upper())]
    keys += [f"<a-{key}>" for c in arms(body(actions, "alt_letter_action")) for key in (c, c.upper())]
    keys += arms(body(actions, "sign_action")) + [f"<a-{c}>" for c in arms(body(actions, "alt_sign_action"))]
    keys += [f"<{shift}{base.lower()}>" for base in arms(body(actions, "arrow_action"), r"Base::(\w+)") for shift in ("", "s-")]
    keys += [f"<{base.lower()}>" for base in arms(body(actions, "plain_action"), r"Base::(\w+)") if base != "Char"]
    keys += [f"<c-{c}>" for c in arms(body(actions, "control_action"))]
    listed = [key for cells in rows("KEYS.md", "Normal mode", "Key") for key in spans(cells[0])]
    agree(report, "docs/KEYS.md and normal_keys: the keys of normal mode", listed, keys)
    twice = {key for key in listed if listed.count(key) > 1}
    report.check("docs/KEYS.md: each key of normal mode has one row, but for g, which has one with a count too", {"g"}, twice)
    places = [key for cells in rows("KEYS.md", "Normal mode", "Place") for key in spans(cells[0])]
    agree(report, "docs/KEYS.md and normal_keys: places", places, arms(body("normal_keys/src/awaited.rt", "place_named")))
    objects = [key for cells in rows("KEYS.md", "Normal mode", "Object") for key in spans(cells[0].replace("a space", "` `").replace("the grave mark", "`grave`"))]
    coded = [{"\\'": "'", "`": "grave"}.get(c, c) for c in arms(body("normal_keys/src/awaited.rt", "object_named"), r"'(\\?.)'")]
    agree(report, "docs/KEYS.md and normal_keys: objects", objects, coded + ["<a-w>"])


def other_modes(report):
    """docs/KEYS.md has a row for each key of insert mode and of prompts."""
    inserts, prompts = "insert_prompt/src/inserts.rt", source("insert_prompt/src/prompts.rt")
    named = r"Base::([A-Z]\w+)\b(?!\('.)"
    keys = [f"<c-{c}>" for c in arms(source(inserts))] + [f"<{base.lower()}>" for base in arms(body(inserts, "run_plain"), named)]
    for section, coded in (("Insert mode", keys), ("Prompt", [f"<c-{c}>" for c in arms(prompts)] + [f"<{base.lower()}>" for base in arms(prompts, named)])):
        listed = [key for cells in rows("KEYS.md", section, "Key") for key in spans(cells[0].replace("a character", "`<char>`", cells[0].startswith("a ")))]
        agree(report, f"docs/KEYS.md and insert_prompt: {section}", listed, coded)


def key_names(report):
    """docs/KEYS.md has the names of keys."""
    listed = [name for cells in rows("KEYS.md", "How keys are written", "Names") if "F1" not in cells[0] for name in spans(cells[0])]
    agree(report, "docs/KEYS.md and key_names: names of keys", listed, re.findall(r'Some\("(\w+)"\)', source("key_names/src/naming.rt")))


def registers(report):
    """docs/KEYS.md has the registers, and docs/COMMANDS.md their long names."""
    names = source("kak_registers/src/names.rt")
    coded = [c for arm in re.findall(r"matches!\(name, (.*)\)", names) for c in re.findall(r"'(.)'", arm)]
    agree(report, "docs/KEYS.md and kak_registers: registers", [name for cells in rows("KEYS.md", "Registers", "Register") for name in spans(cells[0])], coded)
    listed = [name for cells in rows("COMMANDS.md", "Expansions", "Expansion") if "%reg" in cells[0] for name in spans(cells[1])]
    agree(report, "docs/COMMANDS.md and kak_registers: long names", listed, re.findall(r'codes "(\w+)"', source("kak_registers/specs/Names.antt")))


def commands(report):
    """docs/COMMANDS.md has the commands with their short names and switches."""
    names, cells = "command_forms/src/names.rt", [cells for cells in rows("COMMANDS.md", "The commands", "Command")]
    arm = r'"([^"]+)" => Some\(CommandName::(\w+)\)'
    short = {name: word for word, name in re.findall(arm, body(names, "alias_of"))}
    coded = {(word, short.get(name, "")) for word, name in re.findall(arm, body(names, "full_name"))}
    listed = {(use.split()[0], alias) for row in cells for use, alias in re.findall(r"`([^`]+)`(?: \[([a-z!]+)\])?", row[0])}
    agree(report, "docs/COMMANDS.md and command_forms: commands and their short names", listed, coded)
    types = [cells[0] for cells in rows("COMMANDS.md", "Highlighters", "Type")]
    switches = [switch for row in [*(row[0] for row in cells), *types] for switch in re.findall(r"\[(-[a-z-]+)", row)]
    agree(report, "docs/COMMANDS.md and command_forms: switches", switches, re.findall(r'"(-[a-z][a-z-]*)"', source("command_forms/src/switches.rt")))
    coded = arms(body("command_forms/src/painters.rt", "highlighter_type"), r'"([a-z-]+)"')
    agree(report, "docs/COMMANDS.md and command_forms: types of highlighters", [use.split()[0] for cell in types for use in spans(cell)], coded)


def expansions(report):
    """docs/COMMANDS.md has the expansions and values."""
    listed = [found for cells in rows("COMMANDS.md", "Expansions", "Expansion") for found in re.findall(r"%(\w+)\{(\w*)", cells[0])]
    names = "command_set/src/value_names.rt"
    agree(report, "docs/COMMANDS.md and command_set: expansions", {kind for kind, _ in listed}, arms(body(names, "kind_named"), r'"(\w+)"'))
    # the parameter of a hook has its row apart from the values of clients and buffers
    values = arms(body(names, "value_named"), r'"(\w+)"') + re.findall(r'name == "(\w+)"', body("command_set/src/expansions.rt", "named_value"))
    agree(report, "docs/COMMANDS.md and command_set: values", {name for kind, name in listed if kind == "val"}, values)


def options(report):
    """docs/COMMANDS.md has the given options, each with its type, its first value and what it takes."""
    given, within = source("scope_options/src/options.rt"), source("scope_options/src/within.rt")
    coded = {}
    for name, number, text in re.findall(r'given\(alloc, "(\w+)", (?:OptionValue::Int\((\d+)\)|text\(alloc, "(\w*)"\)\?)\)', given):
        taken = re.search(rf'"{name}" => (.*),\n', within)
        numbers = re.findall(r"\d+", taken[1]) if taken and number else []
        coded[name] = ("int" if number else "str", number or text or "empty", tuple(numbers or (re.findall(r'"(\w+)"', taken[1]) if taken else ["anything"])))
    listed = {}
    for name, kind, first, takes in rows("COMMANDS.md", "Options", "Option"):
        taken = takes.split(":")[0]
        listed[name.strip("`")] = (kind, first.strip("`"), tuple(re.findall(r"\w+", taken.replace(" to ", " "))))
    agree(report, "docs/COMMANDS.md and scope_options: options", listed.items(), coded.items())


def status_texts(report):
    """docs/COMMANDS.md has each text by which a key or a command is refused, and the pages name no other one."""
    specs = source("kak_world/specs/Rows.antt") + source("kak_world/specs/CommandErrors.antt") + source("kak_engine/specs/Doing.antt")
    coded = re.findall(r'^(?:(?:error|command)_text .*|nested_too_deep) = codes "([^"]+)"', specs, re.MULTILINE)
    fixed = lambda text: re.sub(r"[A-Z]+$", "", text)
    agree(report, "docs/COMMANDS.md and kak_world: status texts", [fixed(text) for cells in rows("COMMANDS.md", "Status texts", "Status text") for text in spans(cells[0])], coded)
    used = [text for cells in rows("COMMANDS.md", "The commands", "Command") for text in spans(cells[2]) if " " in text]
    used += [text for cells in rows("KEYS.md", "Normal mode", "Status text") for text in spans(cells[0])]
    agree(report, "docs/COMMANDS.md, docs/KEYS.md: status texts in tables of refusals", {fixed(text) for text in used} - set(coded) or {"none"}, ["none"])


def refusals(report):
    """docs/PROTOCOL.md has the refusals of lines in their order, each with its code."""
    coded = re.findall(r'^refusal_code \(?(\w+)\b.* = codes "(-\d+)"', source("json_writing/specs/Refusals.antt"), re.MULTILINE)
    report.check("docs/PROTOCOL.md and json_writing: the refusals of lines", coded, [(spans(cells[0])[0].split()[0], cells[1]) for cells in rows("PROTOCOL.md", "Refusals", "Message")])


def statuses(report):
    """docs/PROTOCOL.md has each status with which a program ends."""
    for section, path, never in (("The end", "kak_app/specs/Runs.antt", "BadClient"), ("Replays", "kak_app/specs/Runs.antt", None), ("Servers", "session_server/specs/Running.antt", None)):
        coded = [number for name, number in re.findall(r"^(?:code_of|server_code) \(?(\w+)[^=\n]*= (\d+)", source(path), re.MULTILINE) if name != never]
        agree(report, f"docs/PROTOCOL.md, {section}: statuses", [cells[0] for cells in rows("PROTOCOL.md", section, "Status")], coded)


def faces(report):
    """docs/PROTOCOL.md has the faces that are set from the start, and the names of attributes and colours; and each line of a drawing."""
    coded = dict(re.findall(r"^standard_face name\.(\w+) = (.*)", source("kak_faces/specs/Standard.antt"), re.MULTILINE))
    for of, front, back, attributes in rows("PROTOCOL.md", "Drawings", "Face of"):
        colours = [name.lower() for name in re.findall(r"named\.(\w+)", coded[FACES[of]])] or ["default", "default"]
        face = (colours, re.findall(r"(\w+) = true", coded[FACES[of]]))
        report.check(f"docs/PROTOCOL.md: the face of {of}", face, (spans(front) + spans(back), spans(attributes)))
    report.check("docs/PROTOCOL.md has a row for each face that is drawn", sorted(FACES), sorted(cells[0] for cells in rows("PROTOCOL.md", "Drawings", "Face of")))
    colours, section = source("kak_faces/specs/Colours.antt"), page("PROTOCOL.md").partition("### Faces\n")[2].partition("| Face of")[0]
    attributes = re.findall(r'^attribute_name .* = codes "(\w+)"', colours, re.MULTILINE)
    report.check("docs/PROTOCOL.md: the attributes, in their order", attributes, [name for name in spans(section.partition("in this order:")[2].partition(". ")[0])])
    plain = [name for name in re.findall(r'^colour_name .* = codes "([\w-]+)"', colours, re.MULTILINE)]
    named = spans(section.partition("A colour is")[2].partition("`bright-`")[0])
    agree(report, "docs/PROTOCOL.md and kak_faces: colours", named + [f"bright-{name}" for name in named if name != "default"], plain)
    written = re.findall(r'request_line \(codes "(\w+)"\)', source("json_writing/specs/Drawings.antt"))
    agree(report, "docs/PROTOCOL.md and json_writing: the lines of a drawing", [name for cells in rows("PROTOCOL.md", "Drawings", "Line") for name in spans(cells[0])], written)


def limits(report):
    """docs/DEFINITIONS.md has each limit with its number, and says whether a clause has it; the pages name no other large numbers."""
    texts = [(crate, path.read_text()) for crate in crate_names() for part in ("src", "specs") for path in (CRATES / crate / part).rglob("*.*t")]
    coded = {(crate, pub or own, int(number)) for crate, text in texts for pub, own, number in CONSTANT.findall(text)}
    listed = rows("DEFINITIONS.md", "Limits", "Limit")
    agree(report, "docs/DEFINITIONS.md: limits", {(*spans(cells[2]), int(cells[1].replace(",", ""))) for cells in listed}, coded)
    for _, number, constant, claimed in listed:
        of, name = spans(constant)
        stated = rf"\b{name} ≡ {number.replace(',', '')}\b"
        known = any(re.search(stated, text) and (crate == of or f"Rattle.{of}." in text) for crate, text in texts)
        report.check(f"docs/DEFINITIONS.md: whether a clause has the number of {constant}", "yes" if known else "no", claimed)
    numbers = {cells[1] for cells in listed}
    for name in ("KEYS.md", "COMMANDS.md", "PROTOCOL.md"):
        for number in sorted(set(re.findall(r"\b\d{1,3}(?:,\d{3})+\b", page(name))) - numbers):
            report.fail(f"docs/{name}: {number} is no limit of docs/DEFINITIONS.md")


def layers(report):
    """docs/ARCHITECTURE.md has each crate in a layer that none of those that it uses is above."""
    layer = {crate: number for number, cells in enumerate(rows("ARCHITECTURE.md", "The crates, from below", "Layer")) for crate in spans(cells[1])}
    agree(report, "docs/ARCHITECTURE.md and crates.txt: crates", layer, crate_names())
    odd = [(crate, used) for crate, uses in crates().items() for used in uses if layer.get(used, 0) > layer.get(crate, len(layer))]
    report.check("docs/ARCHITECTURE.md: crates that use one of a row below theirs", [], odd)
    late = [(crate, used) for place, (crate, uses) in enumerate(crates().items()) for used in uses if used in crate_names()[place:]]
    report.check("crates.txt: crates that use one of a line below theirs", [], late)
