#!/usr/bin/env python3
"""Checks README.md, SECURITY.md, CHANGELOG.md and docs/*.md, and prints each finding as FILE:LINE: what is wrong.

    python3 tools/check_docs.py

The status is 1 if there is any finding. `make -C c test` runs it. It checks that

- each relative link leads to a file, and each anchor to a heading;
- each path in `code font` is there, by its whole path or its end, each name of a crate is in crates.txt, and each other name
  in code font is a word of the sources;
- each file in a must-fail/ folder has a row in docs/WRONG_BODIES.md;
- no line of prose has more than 120 columns, and no table cell more than 200 characters as it is shown;
- no line has a date or a word of history, since the documents say what is the case;
- each command in a code block is in COMMANDS below, or runs a program with the arguments with which `rt ci` runs it.
"""
import fnmatch, glob, os, re, sys, unicodedata

TOP = os.path.normpath(os.path.join(os.path.dirname(os.path.abspath(__file__)), ".."))
MOST_COLUMNS, MOST_IN_CELL = 120, 200

# How each command of the documents is run. TEST: `make -C c test` does, by the text behind the word, which is in
# c/test.txt or c/test.sh. HAND: by hand, and why. What isn't here is a program with the arguments of its file `args`,
# which `rt ci` runs.
COMMANDS = {
    "rt ci": ("HAND", "the file run in the folder .ci calls it"),
    "make -C c test": ("HAND", "it calls this script"),
    "make -C c run": ("TEST", "$ demo loop.json"),
    "make -C c run-toy": ("TEST", "$ toy"),
    "make -C c run-compiled": ("TEST", "$ compiled 100000"),
    "make -C c compare": ("TEST", '"$here/compare.sh" "$made/bin/compile" 200'),
    "make -C c install PREFIX=FOLDER": ("HAND", "it writes outside the repository"),
    "make -C c install-programs PREFIX=FOLDER": ("HAND", "it writes outside the repository"),
    "make -C c install-proved-programs PREFIX=FOLDER": ("HAND", "it writes outside the repository"),
    "make -C c dist": ("TEST", 'make -C "$here" dist'),
    "cargo add regalloc2@0.15.2": ("HAND", "it needs a registry"),
    "cargo add --path ../kolfatsi/cargo/regalloc2-judge": ("HAND", "it changes another package"),
    "ra2_text run data/loop.txt": ("TEST", "$ ra2_text run loop.txt"),
    "ra2_text json data/loop.txt": ("TEST", "ra2_text json $name.txt"),
    "ra2_text svg data/loop.txt": ("TEST", "$ ra2_text svg loop.txt"),
    "ra2_text reads data/wrong_way.txt": ("TEST", "$ ra2_text reads wrong_way.txt"),
    "ra2_text replay data/wrong_way.txt": ("TEST", "$ ra2_text replay wrong_way.txt"),
    "ra2 check < ../../examples/loop.json": ("TEST", "$ ra2 check <loop.json"),
    "ra2 run < ../../examples/loop.json": ("TEST", "$ ra2 run <loop.json"),
    "python3 tools/check_docs.py": ("TEST", "tools/check_docs.py"),
    "python3 bench/measure.py --sizes 10000,100000": ("HAND", "it needs valgrind"),
    "python3 bench/time.py --sizes 1000,10000": ("HAND", "it needs a machine that does nothing else"),
    "python3 bench/unproved.py OUT": ("HAND", "it reads the toolchain's layout, which CI doesn't rely on"),
    "valgrind --tool=callgrind out/regalloc2_bench allocate 1 < FUNCTION": ("HAND", "it needs valgrind"),
    "valgrind --tool=callgrind out/regalloc2_bench callmoves-cycle 1 10000": ("HAND", "it needs valgrind"),
}

# The first words by which a line of a code block is known as a command.
PROGRAMS = set("""cargo cc cd clang cmp diff export gcc git install make pkg-config python python3 rt rustc sh tar valgrind
    ra2 ra2_text demo toy compiled compare upstream""".split())

EXTENSIONS = set("antt c case edit h json listing md patch py rs rt sh svg toml txt".split())

# Names in code font that aren't in the repository.
UPSTREAM = set("CheckerValue define_index ion verbose_log freealloc live_vregs meet_with mod.rs".split())
STAND_INS = set("vN blockB stackN p63f by_run proofs/by_run/Answers.antt".split())
ELSEWHERE = UPSTREAM | STAND_INS

SOURCES = tuple(".antt .c .case .h .py .rs .rt .sh .toml .txt Makefile .ci/run".split())
WORD_BYTES = bytes(c if chr(c).isalnum() and c < 128 or c == 95 else 32 for c in range(256))

HISTORY = re.compile(
    r"\b(?:(?:was|were|been|had been) tried|the same day|that day|before th(?:is|ese|at) (?:steps?|changes?)|earlier (?:form|program|version)s?"
    r"|at th(?:e|at) time|came later|came after these|since then|once more|any ?more|formerly|originally"
    r"|until now|in the past|(?:the|of the) last steps?|later steps?|later change|has since|used to (?:be|have|take)"
    r"|yesterday|last (?:week|month|year)|(?:January|February|March|April|June|July|August|September|October|November|December) \d"
    r"|20[2-3]\d)\b|\b\d{4}-\d\d-\d\d\b", re.I)

CODE = re.compile(r"(`+)(.+?)\1(?!`)")
LINK = re.compile(r"\[((?:[^\[\]]|\[[^\]]*\])*)\]\(([^()\s]+)\)")


class Tree:
    """The files and folders of the repository, without what is built, and the crates of crates.txt."""

    def __init__(self, top):
        self.files, self.folders = set(), set()
        for at, folders, files in os.walk(top):
            folders[:] = [it for it in folders if it not in ("out", ".git", "target", "__pycache__")]
            here = os.path.relpath(at, top)
            self.folders.add("/" + here)
            self.files.update("/" + os.path.normpath(os.path.join(here, it)) for it in files)
        lines = open(os.path.join(top, "crates.txt")).read().split("\n")
        self.crates = {line.split(":")[0].split()[0] for line in lines if ":" in line and not line.startswith("#")}
        self.firsts = {it.split("/")[1] for it in self.files | self.folders if it.count("/") > 1} | self.crates
        self.firsts |= {"src", "specs", "proofs"}
        self.ends = {path[at:] for path in self.files | self.folders for at, sign in enumerate(path) if sign == "/"}
        self.words = set()
        for path in self.files:
            if path.endswith(SOURCES):
                with open(top + path, "rb") as file:
                    self.words.update(file.read().translate(WORD_BYTES).split())

    def has(self, path):
        """Whether a file or folder has this path, or ends so."""
        end = "/" + path.strip("/")
        return any(fnmatch.fnmatch(it, end) for it in self.ends) if "*" in path else end in self.ends

    def looks_like_a_path(self, text):
        """Whether a text in code font names a file or folder of a repository, and not one that is built."""
        if not re.fullmatch(r"[\w.*-]+(?:/[\w.*-]+)*/?", text) or text.startswith((".", "out/")) or text in ELSEWHERE:
            return False
        last = text.rsplit("/", 1)[-1]
        if "." in last and last.rsplit(".", 1)[1] in EXTENSIONS:
            return True
        return "/" in text.rstrip("/") and text.split("/")[0] in self.firsts


class Line:
    """A line of a page: its kind (`prose`, `code`, `row`, `heading`) and text."""

    def __init__(self, number, kind, text):
        self.number, self.kind, self.text = number, kind, text


def lines_of(text):
    """The lines of a page by kind. A code block is fenced, or indented by four after an empty line."""
    found, fenced, indented, was_empty = [], False, False, True
    for number, line in enumerate(text.split("\n"), 1):
        if line.lstrip().startswith("```"):
            fenced = not fenced
            found.append(Line(number, "fence", line))
            continue
        indented = line.startswith("    ") and (indented or was_empty) or indented and not line.strip()
        kind = "code" if fenced or indented else "row" if line.startswith("|") else "heading" if line.startswith("#") else "prose"
        found.append(Line(number, kind, line))
        was_empty = not line.strip()
    return found


def shown(text):
    """A text as it is shown: of a link its words, of code font what is in it."""
    text = LINK.sub(lambda m: m.group(1), text)
    return CODE.sub(lambda m: m.group(2), text).replace("\\|", "|").strip()


def anchors(text):
    """The anchors of a page's headings."""
    found = {}
    for line in lines_of(text):
        if line.kind == "heading":
            words = shown(line.text.lstrip("#").strip()).lower()
            name = "".join("-" if c == " " else c for c in words if c in " -_" or unicodedata.category(c)[0] in "LN")
            count = found[name] = found.get(name, -1) + 1
            if count:
                found[f"{name}-{count}"] = 0
    return found


def check_links(tree, page, line):
    """Findings about the links of a line."""
    for _, target in LINK.findall(CODE.sub(lambda m: m.group(0) if "](" not in m.group(2) else "", line.text)):
        if re.match(r"[a-z]+:", target):
            continue
        path, _, anchor = target.partition("#")
        full = os.path.normpath(os.path.join(os.path.dirname(page), path)) if path else page
        if "/" + full not in tree.files | tree.folders:
            yield f"the link {target} leads nowhere"
        elif anchor and full.endswith(".md") and anchor not in anchors(open(os.path.join(TOP, full)).read()):
            yield f"{full} has no heading #{anchor}"
        elif anchor and not full.endswith(".md"):
            yield f"the link {target} has an anchor in a file without headings"


def check_names(tree, line):
    """Findings about the names in code font of a line."""
    for _, text in CODE.findall(line.text):
        text = text.strip()
        if tree.looks_like_a_path(text):
            if not tree.has(text):
                yield f"there is no file or folder {text}"
            continue
        if re.fullmatch(r"(?:regalloc2_(?!c_)|codegen_|example_)[a-z_]+", text):
            if text not in tree.crates:
                yield f"there is no crate {text}"
            continue
        for word in set(re.findall(r"\w+", text)) - ELSEWHERE:
            is_name = "_" in word.strip("_") or re.match(r"[A-Z]\w*[a-z]", word) or word == text and len(word) > 2
            if is_name and word.isascii() and not tree.has(word) and word.encode() not in tree.words:
                yield f"the sources have no word {word}"


def check_layout(line):
    """Findings about the length of a line, and about words of history."""
    if line.kind in ("prose", "heading") and len(line.text) > MOST_COLUMNS:
        yield f"a line of {len(line.text)} columns"
    if line.kind == "row":
        for cell in re.split(r"(?<!\\)\|", line.text):
            if len(shown(cell)) > MOST_IN_CELL:
                yield f"a cell of {len(shown(cell))} characters"
    if line.kind != "code":
        for found in HISTORY.findall(CODE.sub("", LINK.sub(lambda m: m.group(1), line.text))):
            yield f"a word of history: {found}"


def commands(line):
    """The commands of a line of a code block: each without its `cd`, and with its program's name in place of `rt try`."""
    text = re.sub(r"\s+#.*", "", line.text.strip())
    text = text[2:] if text.startswith("$ ") else text
    parts, program = [part.strip() for part in text.split("&&")], None
    first = next((word for word in parts[0].split() if not re.match(r"[A-Z_0-9]+=", word)), "")
    if first not in PROGRAMS and not first.startswith("./"):
        return
    for part in parts:
        entered = re.fullmatch(r"cd (\S+)", part)
        if entered:
            program = entered.group(1)
            continue
        part = re.sub(r"make -C \S*/c ", "make -C c ", part)
        if program and os.path.basename(program) == "c":
            part = re.sub(r"^make ", "make -C c ", part)
        run = re.fullmatch(r"rt (?:try|run)(?: --)?(.*)", part)
        if run and program and program.startswith("crates/"):
            yield os.path.basename(program), run.group(1).strip(), (os.path.basename(program) + " " + run.group(1).strip()).strip()
        else:
            yield None, None, part


def is_run_by_ci(program, arguments):
    """Whether `rt ci` runs a program with these arguments, which its file `args` has."""
    folder = os.path.join(TOP, "crates", program)
    path = os.path.join(folder, "args")
    wanted = open(path).read().split() if os.path.exists(path) else []
    words = re.sub(r"<\s*stdin$", "", arguments).split()
    return os.path.exists(os.path.join(folder, "src", "main.rt")) and [re.sub("^data/", "", word) for word in words] == wanted


def check_commands(line):
    """Findings about the commands of a line."""
    for program, arguments, command in commands(line) if line.kind == "code" else []:
        if program and is_run_by_ci(program, arguments):
            continue
        kind, why = COMMANDS.get(command, (None, ""))
        if kind is None:
            yield f"no script is known to run the command: {command}"
        elif kind == "TEST" and all(why not in open(os.path.join(TOP, "c", name)).read() for name in ("test.txt", "test.sh")):
            yield f"c/test.txt and c/test.sh have no {why!r}, by which `make -C c test` runs the command: {command}"


def check_mutants():
    """Findings about the must-fail files that docs/WRONG_BODIES.md doesn't name, or names for another crate."""
    page, crate, named = "docs/WRONG_BODIES.md", None, set()
    for line in open(os.path.join(TOP, page)).read().split("\n"):
        heading = re.match(r"## `(\w+)`", line)
        crate = heading.group(1) if heading else None if line.startswith("## ") else crate
        named.update((crate, name) for name in re.findall(r"`(\w+\.edit)`", line))
    there = {(path.split(os.sep)[-3], os.path.basename(path)) for path in glob.glob(os.path.join(TOP, "crates", "*", "must-fail", "*.edit"))}
    for crate, name in sorted(there - named):
        yield f"{page}:1: no row under `{crate}` names {name}"
    for crate, name in sorted(named - there, key=str):
        yield f"{page}:1: {name} isn't in the must-fail folder of {crate}"


def main():
    tree, findings, size = Tree(TOP), [], 0
    pages = [it for it in ("README.md", "SECURITY.md", "CHANGELOG.md") if os.path.exists(os.path.join(TOP, it))]
    pages += sorted(os.path.relpath(it, TOP) for it in glob.glob(f"{TOP}/docs/*.md"))
    for page in pages:
        text = open(os.path.join(TOP, page), encoding="utf-8").read()
        size += len(text.encode())
        for line in lines_of(text):
            found = list(check_layout(line)) + list(check_commands(line))
            if line.kind not in ("code", "fence"):
                found += list(check_links(tree, page, line)) + list(check_names(tree, line))
            findings += [f"{page}:{line.number}: {it}" for it in found]
    findings += check_mutants()
    print("\n".join(findings) if findings else f"{size:,} bytes in {len(pages)} pages, and nothing to report")
    return 1 if findings else 0


if __name__ == "__main__":
    sys.exit(main())
