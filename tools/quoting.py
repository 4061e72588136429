"""Reads sources: functions with their comments and clauses, types with their variants, as pages quote them."""
import os
import re

TOP = os.path.dirname(os.path.dirname(os.path.abspath(__file__)))


class Missing(Exception):
    """Something that is quoted and not there."""


def source(path):
    """Returns the lines of a source."""
    try:
        with open(f"{TOP}/{path}", encoding="utf-8") as it:
            return it.read().rstrip("\n").split("\n")
    except OSError:
        raise Missing(f"{path}: no such file") from None


def part_of(path):
    """Returns a source without its heading comments and attributes."""
    lines = source(path)
    first = next((k for k, it in enumerate(lines) if it.startswith(("ghost use", "use "))), None)
    if first is None:
        raise Missing(f"{path}: no use line")
    return lines[first:]


def item_of(path, name):
    """Returns a function of the file's own level, whole."""
    lines = source(path)
    start = next((k for k, it in enumerate(lines) if re.match(rf"(pub |pub\(crate\) )?fn {name}\b", it)), None)
    if start is None:
        raise Missing(f"{path}: no function {name}")
    end = next(k for k in range(start, len(lines)) if lines[k] == "}")
    while start and lines[start - 1].startswith(("///", "#[")):
        start -= 1
    return lines[start : end + 1]


def excerpt_of(path, words):
    """Returns the lines from the first that begins with these words to the next that is as far to the right."""
    lines = source(path)
    start = next((k for k, it in enumerate(lines) if it.lstrip().startswith(words)), None)
    if start is None:
        raise Missing(f"{path}: no line begins with {words}")
    indent = len(lines[start]) - len(lines[start].lstrip())
    end = next(k for k in range(start + 1, len(lines)) if lines[k] and lines[k][indent] != " ")
    return [it[indent:] for it in lines[start : end + 1]]


def find_fn(path, name):
    """Returns the lines of a function's head, from `fn` to the line before its body."""
    owner, _, plain = name.rpartition("::")
    lines, where = source(path), ""
    for k, line in enumerate(lines):
        if line.startswith(("impl", "trait", "pub trait")):
            where = line
        elif line.startswith("}"):
            where = ""
        if not re.match(rf"\s*(pub |pub\(crate\) )?(const )?fn {plain}\b", line):
            continue
        if owner and not re.search(rf"\b{owner}\b", where) or not owner and where:
            continue
        head, indent = [], len(line) - len(line.lstrip())
        for it in lines[k:]:
            if it in (" " * indent + "{", " " * indent + "{}"):
                return head
            head += [it.strip()] if it.strip() else []
            clauses = any(h.startswith(("requires", "ensures")) for h in head)
            if it.rstrip().endswith((" {", ";")) and not clauses:
                head[-1] = head[-1].rstrip("{;").rstrip()
                return head
            # A function of a trait ends with its last clause.
            text = " ".join(head)
            if it.rstrip().endswith(";") and text.count("{") == text.count("}"):
                head[-1] = head[-1].removesuffix(";")
                return head
    raise Missing(f"{path}: no function {name}")


def shorten(text):
    """Writes values at the call and at the return as S and S', x and x'."""
    text = re.sub(r"\bself\b", "S", text)
    text = re.sub(r"\b(\w+)\.new\b", r"\1'", text)
    return re.sub(r"(?<=\w)\.(old|now)\b", "", text)


def pieces_of(head):
    """Returns the signature and each clause of a function's head, each with its lines joined. A condition that each call meets is left out."""
    pieces, left_out = [""], False
    for line in head:
        if line.startswith("//"):
            left_out = "each call" in line
        elif re.match(r"(requires|ensures)\b", line):
            if not left_out or line.startswith("ensures"):
                pieces.append(line)
            left_out = False
        else:
            pieces[-1] += f" {line}"
    return [it.strip() for it in pieces]


def contract_of(path, name):
    """Returns the lines that quote a function."""
    signature, *clauses = pieces_of(find_fn(path, name))
    signature = re.sub(r",? (?=[)>])", "", re.sub(r"(?<=[(<]) ", "", signature))
    found = [re.sub(r"^(pub |pub\(crate\) )?(const )?fn \w+", f"fn {name}", signature)]
    for clause in clauses:
        parts = re.match(r"(requires|ensures)(\*?) ?(\w+)? ?\{ ?(.*?) ?\}$", clause)
        if not parts:
            raise Missing(f"{path}: {name}: cannot read the clause {clause}")
        word, star, label, body = parts.groups()
        if body != "0 ≤ 1":
            found.append(f"  {word}{star}{' ' + label if label else ''}: {shorten(body)}")
    return found


def variants_of(path, name):
    """Returns the lines that quote an enum or a struct: its variants, or its public fields, each with its comment."""
    lines = source(path)
    start = next((k for k, it in enumerate(lines) if re.match(rf"pub (enum|struct) {name}\b", it)), None)
    if start is None:
        raise Missing(f"{path}: no type {name}")
    found = [re.match(r"pub ((?:enum|struct) .*?) ?\{", lines[start])[1]]
    is_struct, pieces, note = found[0].startswith("struct"), [], []
    for line in map(str.strip, lines[start + 1 : lines.index("}", start)]):
        if line.startswith("///") and not pieces:
            note.append(line[3:].strip())
        elif line and not line.startswith(("//", "#", "ghost")):
            pieces.append(line)
            text = " ".join(pieces)
            if text.count("{") == text.count("}"):
                if not is_struct or text.startswith("pub "):
                    text = text.removeprefix("pub ").rstrip(",").replace(", }", " }")
                    found.append(f"  {text}" + (f"    // {' '.join(note)}" if note else ""))
                pieces, note = [], []
    return found
