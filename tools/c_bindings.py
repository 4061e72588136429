"""What the header and the bindings say, and whether it is what the sources of fleet_c say: used by tools/build_c."""
import re
import sys

import c_sources
import processes
from quick import TOP

SOURCES = c_sources.sources_of(TOP / "crates" / "fleet_c")
CROSSING = c_sources.structs_of(SOURCES)
BINDINGS = TOP / "bindings"

NUMBERS = {"u8": "uint8_t", "u16": "uint16_t", "u32": "uint32_t", "u64": "uint64_t", "usize": "size_t", "bool": "bool"}
STRUCTS = {"Handle": "fleet", "Setup": "setup", "Robot": "robot", "Fault": "fault", "Judgement": "judgement", "Report": "report",
           "Note": "note", "Edge": "edge", "Request": "order", "Landing": "arrival", "MapHandle": "map", "MapShape": "shape",
           "Chore": "errand", "Standing": "standing", "Account": "account", "ChapterHandle": "chapter",
           "ExecutionHandle": "execution", "Motion": "move", "Whereabouts": "whereabouts", "Progress": "progress",
           "ShieldHandle": "shield"}
# What the header has in the place of a number of 32 bits
ENUMS = {("Fault", "code"): "code", ("Judgement", "verdict"): "verdict", ("Note", "verdict"): "verdict", ("Request", "kind"): "kind",
         ("Standing", "state"): "state"}
NO_CODE = ("nashirudder_version",)
# What handles are made of
OWNERS = ("Owned", "Handle", "OwnedMap", "MapHandle", "OwnedChapter", "ChapterHandle", "OwnedExecution", "ExecutionHandle", "OwnedShield", "ShieldHandle")


say = processes.Voice("the bindings")


def fail(what):
    sys.exit(f"build_c: {what}")


# ---- what the sources say
def c_type(rust):
    return NUMBERS[rust] if rust in NUMBERS else "nashirudder_" + STRUCTS[rust]


def c_parameter(name, rust):
    """The C parameters that a parameter of an export is."""
    slice_of = re.fullmatch(r"&(mut )?\[(\w+)\]", rust)
    if slice_of:
        const = "" if slice_of[1] else "const "
        return [f"{const}{c_type(slice_of[2])} *{name}", f"size_t {name}_length"]
    behind = re.fullmatch(r"&(mut )?(\w+)", rust)
    if behind:
        const = "" if behind[1] else "const "
        return [f"{const}{c_type(behind[2])} *{name}"]
    return [] if rust == "Global" else [f"{c_type(rust)} {name}"]


def exports():
    """The exports' declarations in C, by name."""
    found = {}
    for _, name, parameters, result in c_sources.exports_of(SOURCES):
        words = [word for parameter in parameters for word in c_parameter(*parameter)] or ["void"]
        if name == "nashirudder_message":
            words = [word.replace("uint8_t *", "char *") for word in words]
        answers = "nashirudder_code" if result == "u32" and name not in NO_CODE else c_type(result) if result else "void"
        found[name] = f"{answers} {name}({', '.join(words)});"
    found["nashirudder_is_proved"] = "bool nashirudder_is_proved(void);"
    return found


def checked():
    """The exports that bindings/c/checked.c stands before, without their prefix."""
    return re.findall(r"^RAW\((\w+)\);$", (BINDINGS / "c" / "checked.c").read_text(), re.M)


def lookers():
    """The exports to which bindings/c/checked.c gives a copy of the handle: so a program gives them a const one."""
    bodies = re.findall(r"^nashirudder_code (nashirudder_\w+)\((.*?)\) \{\n(.*?)^\}$", (BINDINGS / "c" / "checked.c").read_text(), re.M | re.S)
    return {name for name, parameters, body in bodies if re.match(r"const nashirudder_(fleet|map|chapter|execution) \*(\w+)", parameters) and "(&seen" in body}


def declarations():
    """The declarations of the header: the exports', but that calls which only look take the handle as const."""
    found = exports()
    for name in lookers():
        found[name] = re.sub(r"\((nashirudder_(?:fleet|map|chapter|execution) \*)", r"(const \1", found[name], count=1)
    return found


def c_field(name, rust):
    array = re.fullmatch(r"\[(\w+); (\d+)\]", rust)
    return f"{c_type(array[1])} {name}[{array[2]}]" if array else f"{c_type(rust)} {name}"


def structs():
    """The fields of the structs that cross, in C, by the C name."""
    found = {STRUCTS[name]: [f"nashirudder_{ENUMS[name, field[0]]} {field[0]}" if (name, field[0]) in ENUMS else c_field(*field) for field in fields]
             for name, (_, fields) in CROSSING.items() if name not in OWNERS}
    # A handle's owner is a pointer and an allocator, which takes no bytes.
    found["fleet"] = found["map"] = found["chapter"] = found["execution"] = found["shield"] = ["void *at", "bool is_open"]
    return {f"nashirudder_{name}": fields for name, fields in found.items()}


def constants(module):
    """The numbers that a file of the sources names."""
    return {name: int(number.replace("_", "")) for name, number in re.findall(r"^pub const (\w+): u32 = ([\d_]+);", SOURCES[module], re.M)}


# ---- what the bindings say
def without_comments(text):
    return re.sub(r"/\*.*?\*/", " ", text, flags=re.S)


def same(what, wanted, found):
    """Compares two tables, and names what differs."""
    for name in sorted(set(wanted) | set(found)):
        if wanted.get(name) != found.get(name):
            fail(f"{what} {name}: the sources say {wanted.get(name)}, the header says {found.get(name)}")
    say(f"{what}s: {len(wanted)}, as in the sources")


def compare_header():
    text = (BINDINGS / "c" / "nashirudder.h").read_text()
    bare = without_comments(text)
    declared = {}
    for declaration in re.findall(r"^(?:NASHIRUDDER_MUST_USE nashirudder_code|uint32_t|size_t|bool|void) nashirudder_\w+\([^)]*\);", bare, re.M):
        words = re.sub(r"\s+", " ", declaration).removeprefix("NASHIRUDDER_MUST_USE ")
        declared[re.search(r"nashirudder_\w+(?=\()", words)[0]] = words
    same("function", declarations(), declared)
    if {f"nashirudder_{name}" for name in checked()} != set(exports()) - {"nashirudder_version", "nashirudder_is_proved"}:
        fail("bindings/c/checked.c does not stand before each export")
    fields = {name: [re.sub(r"\s+", " ", field).strip() for field in body.split(";") if field.strip()]
              for body, name in re.findall(r"typedef struct \w+ \{(.*?)\} (\w+);", bare, re.S)}
    same("struct", structs(), fields)
    numbers = {name: {word: int(number) for word, number in re.findall(r"NASHIRUDDER_(\w+) = (\d+)", body)}
               for name, body in re.findall(r"typedef NASHIRUDDER_ENUM\(nashirudder_(\w+)\) \{(.*?)\}", bare, re.S)}
    same("code", constants("codes"), numbers["code"])
    same("verdict", {"NO_VERDICT": 0, **constants("verdicts")}, numbers["verdict"])
    same("kind", constants("request"), numbers["kind"])
    same("state", {name: number for name, number in constants("standing").items() if name != "NOWHERE"}, numbers["state"])
    same("clearance", constants("executions"), numbers["clearance"])
    if set(numbers["code"].values()) & set(numbers["verdict"].values()) != {0}:
        fail("a verdict has the number of a code")
    compare_version(text)
    return numbers


# The structs of bindings/rust that cross, where they are not `Raw` and the word of the header
RUST = {"Handle": "Handle", "MapHandle": "Handle", "ChapterHandle": "Handle", "ExecutionHandle": "Handle", "ShieldHandle": "Handle", "Robot": "crate::Robot", "Report": "crate::Report"}


def rust_text():
    """The sources of bindings/rust."""
    return "\n".join(path.read_text() for path in sorted((BINDINGS / "rust" / "src").glob("*.rs")))


def rust_type(rattle):
    return rattle if rattle in NUMBERS else RUST.get(rattle) or "Raw" + STRUCTS[rattle].capitalize()


def rust_parameter(name, rattle):
    """The parameters in Rust that a parameter of an export is."""
    lent = re.fullmatch(r"&(mut )?(\[)?(\w+)\]?", rattle)
    if lent:
        behind = f"{name}: *{'mut' if lent[1] else 'const'} {rust_type(lent[3])}"
        return [behind, f"{name}_length: usize"] if lent[2] else [behind]
    return [] if rattle == "Global" else [f"{name}: {rattle}"]


def compare_rust():
    """The declarations of bindings/rust are those of the sources."""
    raw = (BINDINGS / "rust" / "src" / "raw.rs").read_text()
    text = rust_text()
    wanted = {name: [parameter for given in parameters for parameter in rust_parameter(*given)] + ([result] if result else [])
              for _, name, parameters, result in c_sources.exports_of(SOURCES)}
    wanted["nashirudder_is_proved"] = ["bool"]
    for name in lookers():
        wanted[name][0] = wanted[name][0].replace("*mut", "*const", 1)
    declared = {name: re.findall(r"\w+: [^,]+", " ".join(parameters.split())) + ([result] if result else [])
                for name, parameters, result in re.findall(r"pub\(crate\) fn (nashirudder_\w+)\((.*?)\)(?: -> (\w+))?;", raw, re.S)}
    for name, words in declared.items():
        if words != wanted[name]:
            fail(f"bindings/rust declares {name} with {words}, and should with {wanted[name]}")
    layouts = {name: re.findall(r"^    pub (\w+): ([^,]+),$", body, re.M)
               for name, body in re.findall(r"#\[repr\(C\)\]\n(?:#\[[^\n]*\n)*pub(?:\(crate\))? struct (\w+) \{\n(.*?)\n\}", text, re.S)}
    crossing = {rust_type(name).removeprefix("crate::"): fields for name, (_, fields) in CROSSING.items() if name not in OWNERS}
    for name in sorted(set(layouts) - {"Handle"}):
        if layouts[name] != crossing[name]:
            fail(f"the struct {name} of bindings/rust has {layouts[name]}, and should have {crossing[name]}")
    say(f"bindings/rust: {len(declared)} functions and {len(layouts)} structs, as in the sources")


def compare_version(text):
    """The header, the sources and the packages are of one version."""
    parts = [int(number) for number in re.findall(r"^#define NASHIRUDDER_VERSION_(?:MAJOR|MINOR|PATCH) (\d+)", text, re.M)]
    number = parts[0] * 10000 + parts[1] * 100 + parts[2]
    cargo = re.search(r'^version = "(.*)"', (BINDINGS / "rust" / "Cargo.toml").read_text(), re.M)[1]
    rust = int(re.search(r"^const VERSION: u32 = (\d+);", rust_text(), re.M)[1])
    python = int(re.search(r"^VERSION = (\d+)$", (BINDINGS / "python" / "nashirudder" / "calls.py").read_text(), re.M)[1])
    kept = re.search(r'^SONAME = "(.*)"$', (BINDINGS / "python" / "nashirudder" / "finding.py").read_text(), re.M)[1]
    wanted = f"libnashirudder.so.{parts[0]}" if parts[0] > 0 else f"libnashirudder.so.0.{parts[1]}"
    if not c_sources.SONAME == kept == wanted:
        fail(f"the shared library is {c_sources.SONAME}, for bindings/python {kept}, and should be {wanted}")
    if constants("version")["VERSION"] != number or rust != number or cargo != ".".join(map(str, parts)) or python != number // 100:
        fail(f"the header's version is {parts}, the sources' {constants('version')['VERSION']}, of bindings/rust {cargo} and {rust}, of bindings/python {python}")
    say(f"version: {cargo}, in the sources, the header and the bindings")


def words_in(path, pattern):
    """The numbers, or names, and words that a text of the bindings has in this form."""
    return dict(re.findall(pattern, (BINDINGS / path).read_text()))


def compare_names(defined):
    """The words for codes and verdicts are the same in all bindings, and the verdicts' those of the sources."""
    answers = {str(number): name.lower().replace("_", "-") for name, number in defined["code"].items()}
    judged = {name: str(number) for name, number in defined["verdict"].items() if name != "NO_VERDICT"}
    book = (TOP / "crates" / "fleet_book" / "src" / "verdict.rt").read_text()
    verdicts = dict(zip(judged.values(), re.findall(r'Verdict::\w+(?:\([^)]*\)|\s*\{[^}]*\})? => "([\w-]+)"', book)))
    header = words_in("c/nashirudder.h", r'case NASHIRUDDER_(\w+): return "([\w-]+)"')
    told = {"codes": {str(defined["code"][name]): word for name, word in header.items() if name in defined["code"]},
            "verdicts": {judged[name]: word for name, word in header.items() if name in judged}}
    python = (BINDINGS / "python" / "nashirudder" / "names.py").read_text()
    tables = {f"{what.lower()}s": {number: name.lower().replace("_", "-") for name, number in re.findall(r"^    (\w+) = (\d+)$", body, re.M)}
              for what, body in re.findall(r"^class (Code|Verdict)\(enum\.IntEnum\):\n(.*?)^(?=\S)", python, re.S | re.M)}
    text = rust_text()
    numbers = dict(re.findall(r"Code::(\w+) => (\d+),", text))
    rust = {numbers[name]: word for name, word in re.findall(r'Code::(\w+) => "([\w-]+)"', text)}
    for what, wanted in (("codes", answers), ("verdicts", verdicts)):
        for binding, found in (("c", told[what]), ("python", tables[what])):
            if found != wanted:
                fail(f"the words for {what} in bindings/{binding} are {found}, and should be {wanted}")
    if rust != {number: name for number, name in answers.items() if number != "0"}:
        fail("the codes of bindings/rust differ from the header's")
    rust_verdicts = re.findall(r'Verdict::\w+(?:\(_\))? => "([\w-]+)"', rust_text())
    # The last one stands for numbers that the crate does not have.
    if rust_verdicts != [*verdicts.values(), "unknown"]:
        fail("the verdicts of bindings/rust differ from the sources'")
    say(f"words: {len(answers)} for codes, {len(verdicts)} for verdicts, the same in C, C++, Python and Rust")


def compare_table():
    """The table of docs/EMBEDDING.md names each function of the header, and only what the bindings have. A cell `=` has the names of the cell before it,
    and those after the sign."""
    rows = re.search(r"^\| What \| C .*?\n\|[-|]+\n(.*?)\n\n", (TOP / "docs" / "EMBEDDING.md").read_text(), re.M | re.S)[1].splitlines()
    table = [row.strip("|").split("|") for row in rows]
    for cells in table:
        for at, cell in enumerate(cells):
            if cell.lstrip().startswith("="):
                cells[at] = f"{cells[at - 1]} {cell}"
    columns = [" ".join(cells) for cells in zip(*table)]
    named = [set(re.findall(r"`(?:\w+::)?(\w+)", column)) for column in columns]
    if {f"nashirudder_{name}" for name in named[1]} != set(exports()):
        fail(f"the table of docs/EMBEDDING.md lacks, or has too many, of {sorted({f'nashirudder_{name}' for name in named[1]} ^ set(exports()))}")
    python = "".join(path.read_text() for path in sorted((BINDINGS / "python" / "nashirudder").glob("*.py")))
    texts = ((BINDINGS / "cpp" / "nashirudder.hpp").read_text(), rust_text(), python, python)
    forms = (r"\b{}\(|(?:class|struct) {}\b", r"fn {}\b|(?:struct|enum) {}\b", r"def {}\(|class {}\b|\b{}: ", r"def {}\(|class {}\b|\b{}: ")
    for names, text, form in zip(named[2:], texts, forms):
        lost = sorted(name for name in names if not re.search(form.replace("{}", name), text))
        if lost:
            fail(f"the table of docs/EMBEDDING.md names what is not there: {lost}")
    say(f"table of docs/EMBEDDING.md: {len(rows)} rows, as in the header and the bindings")


def sizes():
    """A program in C that gcc compiles only if the structs have the sizes that their fields come to."""
    def layout(fields):
        at, widest = 0, 1
        for field in fields:
            array = re.search(r"\[(\d+)\]", field)
            width = 8 if "*" in field else {"uint8_t": 1, "bool": 1, "uint16_t": 2, "uint64_t": 8, "size_t": 8}.get(field.split()[0], 4)
            at = -(-at // width) * width + width * (int(array[1]) if array else 1)
            widest = max(widest, width)
        return -(-at // widest) * widest
    if layout(structs()["nashirudder_setup"]) != constants("setup")["SETUP_SIZE"]:
        fail("SETUP_SIZE is not the size of a setup")
    asserts = "".join(f'_Static_assert(sizeof({name}) == {layout(fields)}, "{name}");\n' for name, fields in structs().items())
    return '#include "nashirudder.h"\n' + asserts


def compare():
    """Ends with what differs, if something does."""
    defined = compare_header()
    compare_names(defined)
    compare_rust()
    compare_table()
