"""The functions of a crate's source file: the name by which `rt check --only` takes each, and the lines where it stands.

They are read off the layout of `rt fmt`: a function begins in the first column or, as a method, in the fifth, and its last line closes it there.
"""

import re
from dataclasses import dataclass
from functools import cache

FUNCTION = re.compile(r"( {4}|)(?:pub(?:\([^)]*\))? )?(?:const |unsafe |extern \"C\" )*fn (\w+)")
OWNER = re.compile(r"(?:unsafe )?impl\b|(?:pub(?:\([^)]*\))? )?(?:unsafe )?trait (\w+)")
CONSTANT = re.compile(r" {0,4}(?:pub(?:\([^)]*\))? )?const (\w+):")


@dataclass(frozen=True)
class Function:
    file: str
    name: str
    first: int
    last: int

    def has(self, line):
        return self.first <= line <= self.last


def without_brackets(text):
    """Leaves out what stands between < and >."""
    kept, depth = "", 0
    for at, sign in enumerate(text):
        depth -= sign == ">" and text[at - 1] != "-"
        kept += sign * (not depth and sign not in "<>")
        depth += sign == "<"
    return kept


def owner(lines, at):
    """Returns what the prover's names have for the impl or the trait that begins at this line: MemFilesFiles for `impl Files for MemFiles`."""
    if named := OWNER.match(lines[at])[1]:
        return named
    head = without_brackets(" ".join(lines[at : at + 6]).partition("{")[0]).partition(" where ")[0]
    last_words = [re.findall(r"\w+", it)[-1] for it in head.partition("impl")[2].split(" for ")]
    return last_words[-1] + "".join(it for it in last_words[:-1] if it != "Drop")


@cache
def functions_in(file, text):
    """Lists the functions of this file, a path as src/a/b.rt."""
    lines, found, of = text.split("\n"), [], ""
    module = file.removeprefix("src/").removesuffix(".rt").removesuffix("/mod").replace("/", "::")
    above = "" if module in ("lib", "main") else module + "::"
    for at, line in enumerate(lines):
        if OWNER.match(line):
            of = owner(lines, at) + "::"
        elif head := FUNCTION.match(line):
            closed = [k for k in range(at + 1, len(lines)) if lines[k] in (head[1] + "}", head[1] + "{}")]
            last = at if line.endswith(("}", ";")) or not closed else closed[0]
            found.append(Function(file, (of if head[1] else above) + head[2], at + 1, last + 1))
    return found


def changed_by(texts, file, line):
    """Lists the functions of these files that a change of this line changes: the one that it stands in, or those that name its constant."""
    functions = [it for path, text in texts.items() for it in functions_in(path, text)]
    around = [it for it in functions if it.file == file and it.has(line)]
    if around:
        return [max(around, key=lambda it: it.first)]
    above = texts[file].split("\n")[:line]
    begun = next((at for at in range(line - 1, -1, -1) if CONSTANT.match(above[at])), None)
    if begun is None or any(it.endswith(";") for it in above[begun : line - 1]):
        return []
    word = re.compile(rf"\b{CONSTANT.match(above[begun])[1]}\b")
    return [it for it in functions if word.search("\n".join(texts[it.file].split("\n")[it.first - 1 : it.last]))]
