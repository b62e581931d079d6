#!/usr/bin/env python3
"""Counts the definitions that a spec word, a spec file or a function's contract rests on.

    python3 tools/closure.py [--names] [WORD | FILE.antt | FILE.rt:FUNCTION]...

WORD is a definition of some crate's specs/, as `IsAllocation`. FILE.antt is all that this file of specs/ defines.
FILE.rt:FUNCTION is the contract of a function, as `crates/regalloc2_fastalloc/src/lib.rt:run`, or `...:Ctx::run` for a
method. Without arguments the script counts `IsAllocation`, `IsReason`, and the contract of `run` of regalloc2_fastalloc.

For each it prints the number of definitions, of their lines and of their files, and the files in reading order: the crates
as crates.txt lists them, and the files of a crate as the files of modules (Lib.antt) list them. With --names each file's
definitions follow it.

A definition is an `abbrev`, `unfoldable`, `data` or `record` of this repository's specs/, with its comment. It counts if the
contract, or a definition that counts, names it or a constructor of it. Definitions of the standard library don't count, and
neither do the ones that the compiler writes for the types of the code (`specs.declared`).
"""
import collections, glob, os, re, sys

TOP = os.path.normpath(os.path.join(os.path.dirname(os.path.abspath(__file__)), ".."))
CRATES = os.path.join(TOP, "crates")
USE = re.compile(r"\s*(?:pub |ghost )*use Rattle\.([\w.]+?)(?:\.\{(.*)\})?(?: as (\w+))?;?\s*$")
HEAD = re.compile(r"(?:pub )?(?:abbrev|unfoldable|data|record)\s+(?:pub\s+)?([^\s:({]+)")
NAME = re.compile(r"(?<![\w.'-])([^\W\d][\w'-]*)((?:\.[^\W\d][\w'-]*)*)")
DEFAULT = ["IsAllocation", "IsReason", "crates/regalloc2_fastalloc/src/lib.rt:run"]

# a definition: the module of its file, its name, its text without comments, and how many lines it has with them
Definition = collections.namedtuple("Definition", "module name text lines")


def bare(text):
    """The text without comments and string literals."""
    return re.sub(r'"[^"\n]*"', '""', re.sub(r"(?m)(^|\s)(?:--|//).*$", r"\1", text))


class Imports:
    """What the import lines of a file give: words with their modules, and names for whole modules."""

    def __init__(self, lines):
        self.words, self.modules = {}, {}
        for line in lines:
            found = USE.match(line)
            if found and found.group(2) is None:
                self.modules[found.group(3) or found.group(1).split(".")[-1]] = found.group(1)
            elif found:
                for part in filter(None, (part.strip() for part in found.group(2).split(","))):
                    name, _, short = part.partition(" as ")
                    self.words[short or name] = (found.group(1), name)


class Spec:
    """A file of specs/: its imports, its definitions, and the definition that each word of the file belongs to."""

    def __init__(self, path):
        self.path = os.path.relpath(path, CRATES)
        self.module = self.path[:-len(".antt")].replace("/", ".")
        lines = open(path, encoding="utf-8").read().split("\n")
        self.imports = Imports(lines)
        self.definitions, self.owner = {}, {}
        module_head = ""
        for part in re.split(r"\n\s*\n", "\n".join(line for line in lines if not USE.match(line))):
            comment, module_head_here, rest = self.split(part)
            module_head = module_head_here or (module_head if rest.startswith(" ") else "")
            found = HEAD.match(rest.strip())
            if found:
                self.add(found.group(1), (module_head + "\n" if module_head else "") + rest, comment + rest.count("\n") + 1)

    @staticmethod
    def split(part):
        """The number of comment lines of a part, the head of a `module`, and its definition."""
        lines = [line for line in part.split("\n") if line.strip()]
        code = [line for line in lines if not line.strip().startswith("--")]
        head = code.pop(0) if code and code[0].startswith("module ") else ""
        return len(lines) - len(code) - bool(head), head, "\n".join(code)

    def add(self, name, text, lines):
        self.definitions[name] = Definition(self.module, name, bare(text), lines)
        self.owner[name] = name
        if re.search(r"(?m)^\s*(pub )?data ", text):
            for made in re.findall(r"(?m)^\s+([^\W\d][\w'-]*)\s*:\s", text):
                self.owner.setdefault(made, name)


class Specs:
    """All files of specs/ by their modules."""

    def __init__(self):
        found = glob.glob(os.path.join(CRATES, "*", "specs", "**", "*.antt"), recursive=True)
        self.files = {spec.module: spec for spec in map(Spec, found)}

    def find(self, module, name):
        """The definition that a module gives for a word, by itself or by an import that it passes on."""
        spec = self.files.get(module)
        if spec is None:
            above, _, data = module.rpartition(".")
            spec = self.files.get(above)
            return spec.definitions[spec.owner[data]] if spec and name in spec.owner and data in spec.owner else None
        if name in spec.owner:
            return spec.definitions[spec.owner[name]]
        passed_on = spec.imports.words.get(name)
        return self.find(*passed_on) if passed_on else None

    def named_in(self, text, imports, own=None):
        """The definitions that a text names, where `own` is the file that it is of."""
        found = set()
        hidden = bound_in(text)
        for name, rest in NAME.findall(text):
            if name in imports.modules and rest:
                found.add(self.find(imports.modules[name], rest[1:].split(".")[0]))
            elif name not in hidden:
                if own and name in own.owner:
                    found.add(own.definitions[own.owner[name]])
                elif name in imports.words:
                    found.add(self.find(*imports.words[name]))
        return found - {None}

    def closure(self, start):
        """The definitions of `start`, and all that they rest on."""
        seen, left = set(start), list(start)
        while left:
            spec = self.files[left[-1].module]
            more = self.named_in(left.pop().text, spec.imports, spec) - seen
            seen |= more
            left += more
        return seen


def bound_in(text):
    """The words that a definition's text binds: parameters, fields, variables of clauses, of `let` and of functions."""
    bound = set()
    for names in re.findall(r"[({]\s*([^(){}:→×]+?)\s*:\s", text) + re.findall(r"λ\s+([^.]+)\.\s", text):
        bound |= set(names.split())
    bound |= set(re.findall(r"\blet\s+([^\s:]+)\s*:", text))
    bound |= set(re.findall(r"(?m)^\s+(?:pub\s+)?([^\s:]+)\s*:\s", text))
    bound |= set(re.findall(r"[{;\n]\s*([^\W\d][\w'-]*)\s*=\s", text))
    for head in re.findall(r"(?m)^\s*[^\W\d][\w'-]*\s+([^=:]*?)\s*=(?:\s|$)", text):
        bound |= {name for name in re.findall(r"[^\W\d][\w'-]*", head) if not name[0].isupper()}
    return bound


def contract_of(path, function):
    """The clauses of a function, by its name or by its type's name and its own, and the imports of its file."""
    lines = open(path, encoding="utf-8").read().split("\n")
    of_type, _, name = function.rpartition("::")
    inside = ""
    for at, line in enumerate(lines):
        block = re.match(r"(?:impl|pub trait)\b(?:<[^>]*>)?\s*(?:.* for )?(\w+)", line)
        inside = block.group(1) if block else "" if line.startswith("}") else inside
        if inside == of_type and re.match(rf"\s*(?:pub )?(?:const )?fn {name}\b", line):
            clauses = []
            for clause in lines[at + 1:]:
                if clause.strip() == "{" or clause.rstrip().endswith(("{}", ";")):
                    return bare("\n".join(clauses)), Imports(lines)
                if re.match(r"\s*(?:requires|ensures)", clause) or clauses:
                    clauses.append(clause)
    sys.exit(f"{path}: no function {function}")


def reading_order():
    """The place of each module of specs/ in the order of reading."""
    modules = []

    def add(file, folder, module):
        for name in re.findall(r"(?m)^pub mod (\w+)", open(file, encoding="utf-8").read()):
            modules.append(f"{module}.{name}")
            below = os.path.join(folder, name)
            if os.path.isdir(below):
                add(below + ".antt", below, f"{module}.{name}")

    for crate in re.findall(r"(?m)^(\w+)[^:#\n]*:", open(os.path.join(TOP, "crates.txt"), encoding="utf-8").read()):
        folder = os.path.join(CRATES, crate, "specs")
        if os.path.isfile(os.path.join(folder, "Lib.antt")):
            add(os.path.join(folder, "Lib.antt"), folder, f"{crate}.specs")
    return {module: place for place, module in enumerate(modules)}


def show(specs, title, found, with_names):
    files = collections.defaultdict(list)
    for definition in found:
        files[definition.module].append(definition)
    lines = sum(definition.lines for definition in found)
    print(f"{title}: {len(found)} definitions, {lines} lines, {len(files)} files")
    place = reading_order()
    for module in sorted(files, key=lambda module: place.get(module, len(place))):
        spec = specs.files[module]
        names = [name for name in spec.definitions if spec.definitions[name] in files[module]]
        lines = sum(spec.definitions[name].lines for name in names)
        print(f"  {len(names):3} of {len(spec.definitions):3} {lines:5} lines  {spec.path}")
        if with_names:
            print(f"        {', '.join(names)}")


def main(words):
    specs = Specs()
    with_names = "--names" in words
    for word in [word for word in words if word != "--names"] or DEFAULT:
        path, _, function = word.partition(":")
        if path.endswith(".rt"):
            found = specs.named_in(*contract_of(os.path.join(TOP, path), function))
        elif path.endswith(".antt"):
            module = os.path.relpath(os.path.abspath(path), CRATES)[:-len(".antt")].replace("/", ".")
            found = set(specs.files[module].definitions.values())
        else:
            found = {spec.definitions[word] for spec in specs.files.values() if word in spec.definitions}
        if not found:
            sys.exit(f"{word}: no definition of specs/")
        show(specs, word, specs.closure(found), with_names)


main(sys.argv[1:])
