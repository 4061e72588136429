"""What the sources of the crate fleet_c export to C: used by tools/build_c, tools/install_c and tools/quick_c.py."""
import re

# The number is that of the binary interface: before 1.0.0 major and minor version, as the header says, and then the major one alone.
# A program that was linked with one number runs with no other.
SONAME = "libnashirudder.so.0.1"

STRUCT = re.compile(r"#\[repr\(C\)\]\s*(?:#\[derive\([^)]*\)\]\s*)?pub struct (\w+) \{(.*?)\n\}", re.S)
EXPORT = re.compile(r'pub extern "C" fn (\w+)\(([^)]*)\)(?: -> (\w+))?')


def sources_of(crate):
    """The texts of a crate's files, by the names of their modules."""
    return {path.stem: path.read_text() for path in sorted(crate.glob("src/**/*.rt"))}


def exports_of(sources):
    """The exports, each as its module, its name, its parameters (names and types), and its result's type or ''."""
    found = []
    for module, text in sources.items():
        for name, parameters, result in EXPORT.findall(text):
            parts = [part.strip().split(":", 1) for part in parameters.split(",") if part.strip()]
            found.append((module, name, [(word.strip(), rust.strip()) for word, rust in parts], result))
    return found


def structs_of(sources):
    """The structs that cross, by name: the module, and the fields (pairs of a name and a type)."""
    return {name: (module, re.findall(r"^\s*(?:pub )?(\w+): ([^,]+),", body, re.M))
            for module, text in sources.items() for name, body in STRUCT.findall(text)}
