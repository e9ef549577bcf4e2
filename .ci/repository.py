"""The repository as its checks read it: the crates by stage, their files, their functions.

`.ci/style` and `.ci/index` stand on it. Files are read as text, by the layout that `rt fmt` gives:
an item of a module begins its line, and a method stands four columns in.
"""
import collections
import functools
import glob
import os
import re

ROOT = os.path.dirname(os.path.dirname(os.path.abspath(__file__)))

Stage = collections.namedtuple("Stage", "name about crates")
Item = collections.namedtuple("Item", "line indent public kind name box")
Function = collections.namedtuple(
    "Function", "path line public name arguments clauses labels has_body")


def files(pattern):
    """The paths that a pattern matches, from the top of the repository on, in order."""
    return sorted(glob.glob(pattern, root_dir=ROOT, recursive=True))


@functools.lru_cache(maxsize=None)
def read(path):
    """A file's text."""
    with open(os.path.join(ROOT, path), encoding="utf-8") as file:
        return file.read()


def is_there(path):
    """Whether there is a file or folder of the path."""
    return os.path.exists(os.path.join(ROOT, path))


def sources():
    """The files of code."""
    return files("crates/*/src/**/*.rt")


def definitions():
    """The files of definitions."""
    return files("crates/*/specs/**/*.antt")


def crate_of(path):
    """The crate that a file under crates/ is of."""
    return path.split("/")[1]


@functools.lru_cache(maxsize=None)
def stages():
    """The sections of crates.txt: a comment `# NAME: what it is.`, then a line a crate."""
    found = []
    for line in read("crates.txt").split("\n")[1:]:
        head = re.fullmatch(r"# (.*?)([:,] .*)?", line)
        if head:
            found.append(Stage(head.group(1).rstrip("."), line[2:], {}))
        elif ":" in line and not line.startswith("#"):
            name, listed = line.split(":")
            found[-1].crates[name.strip()] = listed.split()
    return found


@functools.lru_cache(maxsize=None)
def crates():
    """What each crate lists, in the order of crates.txt."""
    return {name: listed for stage in stages() for name, listed in stage.crates.items()}


def tests():
    """The crates of tests and benchmarks: those of the last stage."""
    return set(stages()[-1].crates)


def head_comment(path, mark):
    """The comment that a file begins with, its lines joined."""
    lines = []
    for line in read(path).split("\n"):
        if not line.startswith(mark):
            break
        lines.append(line[len(mark):].strip())
    return " ".join(lines).strip()


COMMENT_OR_TEXT = re.compile(
    r'//[^\n]*|b?r#"(?s:.*?)"#|b?"(?:\\(?s:.)|[^"\\])*"|b?\'(?:\\[^\'\n]+|[^\'\\\n])\'')


@functools.lru_cache(maxsize=None)
def code(path):
    """A source's text with blanks in the place of comments, strings and characters."""
    return COMMENT_OR_TEXT.sub(lambda found: re.sub(r"[^\n]", " ", found.group()), read(path))


ITEM = re.compile(
    r"^(|    )(pub |pub\(crate\) )?(?:const (?=fn))?"
    r"(fn|struct|enum|trait|type|const|impl)\b(?:<[^(]*?>)? ?(.*)$", re.M)


def items(path):
    """The items of a module, and those four columns in with the head of the impl or trait."""
    found, box = [], ""
    for head in ITEM.finditer(code(path)):
        indent, public, kind, rest = head.groups()
        line = code(path).count("\n", 0, head.start()) + 1
        name = (re.match(r"\w*", rest) or [""])[0]
        if not indent:
            box = head.group().strip() if kind in ("impl", "trait") else ""
        found.append(Item(line, len(indent), (public or "").strip(), kind, name, box))
    return found


def closing(text, start):
    """Where the bracket closes that is open before a place."""
    depth = 1
    while depth and start < len(text):
        depth += (text[start] in "([{") - (text[start] in ")]}")
        start += 1
    return start


def arguments_in(text):
    """How many arguments a list of parameters has."""
    depth, parts = 0, [""]
    for at, sign in enumerate(text):
        depth += (sign in "([{<") - (sign in ")]}" or sign == ">" and text[at - 1] not in "-=")
        if sign == "," and depth == 0:
            parts.append("")
        else:
            parts[-1] += sign
    return sum(bool(part.strip()) for part in parts)


FUNCTION = re.compile(r"^ *(pub(?:\(\w+\))? )?(?:const )?fn (\w+)", re.M)
CLAUSE = re.compile(r"\s*(requires|ensures|ghost)\*?\s*(\w*)\s*:?\s*\{")
BODY = re.compile(r"\s*([{;])")


@functools.lru_cache(maxsize=None)
def functions(path):
    """The functions of a source, with the clauses (kind, words) and labels of their contracts."""
    text, plain = code(path), read(path)
    found = []
    for head in FUNCTION.finditer(text):
        at = text.index("(", past_generics(text, head.end()))
        end = closing(text, at + 1)
        arguments = arguments_in(text[at + 1:end - 1])
        clauses, labels = [], set()
        at = past_result(text, end)
        while True:
            clause = CLAUSE.match(text, at)
            if not clause:
                break
            at = closing(text, clause.end())
            labels.add(clause.group(2))
            if clause.group(1) != "ghost":
                words = " ".join(plain[clause.end():at - 1].split())
                clauses.append((clause.group(1), words))
        body = BODY.match(text, at)
        found.append(Function(path, text.count("\n", 0, head.start()) + 1, bool(head.group(1)),
                              head.group(2), arguments, clauses, labels,
                              bool(body and body[1] == "{")))
    return found


def past_result(text, at):
    """Where the type of a result ends, if there is one after the parameters."""
    ending = re.compile(r"\s*(?=[{;]|\n\s*(?:requires|ensures|ghost)\b)")
    while not ending.match(text, at):
        at = closing(text, at + 1) if text[at] in "([" else at + 1
    return at


def past_generics(text, at):
    """Where the parameters of types end that may begin at a place."""
    if text[at] != "<":
        return at
    depth = 0
    while True:
        depth += (text[at] == "<") - (text[at] == ">" and text[at - 1] not in "-=")
        at += 1
        if depth == 0:
            return at
