"""Makes the object file of the library for C without proofs, with run-time checks: used by tools/build_c.

`rt try` builds programs only, and only the functions that a program calls. So the crate fleet_c is copied as a program
whose `main` calls each export. In the bitcode of that program the exports get their C names and can be called from
outside; nothing else can.
"""
import re
import shutil

import c_sources
import quick
from processes import Missing
from quick import TOP

MAIN = """{library}
use std::alloc::Alloc;

fn main(rt: HostRuntime) {{
    let alloc = rt.alloc();
{calls}}}
"""
# Makes a handle for `main`, which may not see what a handle is made of
HANDLE = """
pub fn quick_handle(alloc: Global) -> {name} {{
    {name}::closed(alloc)
}}
"""
HANDLES = {"Handle": "handle", "MapHandle": "map_handle", "ChapterHandle": "chapter_handle", "ExecutionHandle": "execution_handle", "ShieldHandle": "shield_handle"}


def value(rust, structs):
    """A value of a type that crosses to C, written in Rattle."""
    array = re.fullmatch(r"\[(\w+); (\d+)\]", rust)
    if array:
        return f"[{value(array[1], structs)}; {array[2]}]"
    if rust in structs:
        module, fields = structs[rust]
        inner = ", ".join(f"{name}: {value(kind, structs)}" for name, kind in fields)
        return f"crate::{module}::{rust} {{ {inner} }}"
    return "false" if rust == "bool" else f"0{rust}"


def call(module, name, parameters, structs):
    """Lines that call an export once."""
    lines, words = [], []
    for at, (_, rust) in enumerate(parameters):
        borrowed = re.fullmatch(r"&(mut )?(.+)", rust)
        if rust == "Global":
            words.append("alloc")
        elif not borrowed:
            words.append(value(rust, structs))
        else:
            kind = re.sub(r"^\[(\w+)\]$", r"[\1; 1]", borrowed[2])
            made = f"crate::{HANDLES[kind]}::quick_handle(alloc)" if kind in HANDLES else value(kind, structs)
            lines.append(f"let {borrowed[1] or ''}value_{at} = {made};")
            words.append(f"&{borrowed[1] or ''}value_{at}")
    lines.append(f"let _ = crate::{module}::{name}({', '.join(words)});")
    return "    {\n" + "".join(f"        {line}\n" for line in lines) + "    }\n"


def as_program(room):
    """Copies the crate as a program into a repository in the folder `room`; returns its folder and the exports."""
    shutil.copytree(TOP / "crates", room / "crates", ignore=shutil.ignore_patterns("out", "must-fail"))
    copy = room / "crates" / "fleet_c"
    listed = (TOP / "crates.txt").read_text()
    (room / "crates.txt").write_text(re.sub(r"^fleet_c staticlib:", "fleet_c:", listed, flags=re.M))
    if (TOP / "HANDLES").exists():
        shutil.copy(TOP / "HANDLES", room / "HANDLES")
    sources = c_sources.sources_of(copy)
    structs, exports = c_sources.structs_of(sources), c_sources.exports_of(sources)
    for name, module in HANDLES.items():
        with open(copy / "src" / f"{module}.rt", "a") as text:
            text.write(HANDLE.format(name=name))
    calls = "".join(call(module, name, parameters, structs) for module, name, parameters, _ in exports)
    (copy / "src" / "lib.rt").unlink()
    (copy / "src" / "main.rt").write_text(MAIN.format(library=sources["lib"], calls=calls))
    return copy, [name for _, name, _, _ in exports]


def with_c_names(module, names):
    """The bitcode as text in which the exports have their C names, and only they can be called from outside."""
    text, changed = module.with_suffix(".all.ll"), module.with_suffix(".ll")
    quick.clang(module, text, "-Xclang", "-disable-llvm-passes", "-S", "-emit-llvm")
    spelled, found = re.compile(r'@"fleet_c::\w+::(' + "|".join(names) + r')"'), set()
    with open(text) as lines, open(changed, "w") as out:
        for line in lines:
            line = spelled.sub(r"@\1", line)
            if line.startswith("define"):
                export = re.search(r"@(\w+)\(", line)
                line = line.replace("define internal ", "define ", 1)
                if export and export[1] in names:
                    found.add(export[1])
                else:
                    line = line.replace("define ", "define internal ", 1)
            out.write(line)
    if found != set(names):
        raise Missing(f"the bitcode lacks {', '.join(sorted(set(names) - found))}")
    return changed


def watched(module):
    """The same bitcode as text, in which the thread sanitizer is to watch each function."""
    changed = module.with_suffix(".watched.ll")
    with open(module) as lines, open(changed, "w") as out:
        for line in lines:
            if line.startswith("define "):
                line, count = re.subn(r" #(\d+)", r" #\1 sanitize_thread", line, count=1)
                line = line if count else line.replace(" {", " sanitize_thread {", 1)
            out.write(line)
    return changed


def build(room, say, for_threads=None):
    """Makes the object file in the folder `room`; returns its path. Makes a second one at the path `for_threads`, if that is
    given, which the thread sanitizer watches."""
    copy, names = as_program(room / "copy")
    say("rt try translates the library")
    module = quick.bitcode(copy, room)
    say(f"bitcode of {module.stat().st_size / 1e6:.1f} MB, clang -O2 compiles it")
    made, text = room / "nashirudder.o", with_c_names(module, names)
    quick.clang(text, made, "-c")
    if for_threads is not None:
        quick.clang(watched(text), for_threads, "-fsanitize=thread", "-c")
    return made
