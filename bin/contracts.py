"""The contracts of the public functions of a file, for the scripts beside this one."""
import itertools
import os
import re
from dataclasses import dataclass

TOP = os.path.dirname(os.path.dirname(os.path.realpath(__file__)))

BLOCK = re.compile(r"(?P<public>pub )?(?P<kind>impl|trait)\b")
FUNCTION = re.compile(r"\s*(?P<public>pub )?(?:const )?fn (?P<name>\w+)")
CLAUSE = re.compile(r"\s*ensures\*? (?:(?P<name>\w+) )?\{")
MODULE = re.compile(r"^pub mod (\w+);", re.M)


@dataclass
class Contract:
    """A public function with its contract: where it is, the first sentence of its comment, the names of its clauses, and its text."""
    title: str
    file: str
    about: str
    ensures: bool
    clauses: list
    text: str


def lines_of(path):
    with open(os.path.join(TOP, path), encoding="utf-8") as text:
        return text.read().splitlines()


def is_public_file(path):
    """Whether the module of a file can be named outside its crate."""
    folder, name = os.path.split(path)
    if name in ("lib.rt", "main.rt"):
        return name == "lib.rt"
    root = next((it for it in (f"{folder}/lib.rt", f"{folder}/main.rt", f"{folder}.rt") if os.path.exists(f"{TOP}/{it}")))
    return name.removesuffix(".rt") in MODULE.findall("\n".join(lines_of(root))) and is_public_file(root)


def block_of(head):
    """The type or trait whose functions are public, or None where they are those of a trait that is met. They need `pub` in an `impl`."""
    plain = head.replace("->", "")
    while re.search(r"<[^<>]*>", plain):
        plain = re.sub(r"<[^<>]*>", "", plain)
    if " for " in plain:
        return None
    return re.search(r"(?:trait |impl )(?:\w+::)*(\w+)", plain)[1]


def first_sentence(lines):
    """The first sentence of a comment, as a cell of a table."""
    texts = [it.strip().removeprefix("///").strip() for it in lines]
    text = " ".join(itertools.takewhile(bool, texts))
    return re.split(r"(?<=\.) (?=[A-Z`])", text)[0].replace("|", "\\|")


def comment_before(lines, at):
    """The lines of the comment that stands before a line, attributes between them left out."""
    found = []
    while at and lines[at - 1].strip().startswith(("///", "#[")):
        at -= 1
        found.insert(0, lines[at])
    return [it for it in found if it.strip().startswith("///")]


def contract_from(lines, at):
    """The lines of a function up to its body, without their common margin."""
    found = []
    for line in lines[at:]:
        if re.fullmatch(r"\s*\{\}?", line):
            break
        found.append(line.removesuffix(" {") if re.match(r"\s*(pub )?(const )?fn .*\{$", line) else line)
        if line.endswith((";", " {")) and not CLAUSE.match(line):
            break
    margin = len(lines[at]) - len(lines[at].lstrip())
    return [it[margin:] for it in found]


def public_functions(path):
    """The public functions of a file that have a comment or a contract. A block begins and ends where a line does."""
    if not is_public_file(path):
        return []
    found, of, kind, lines = [], None, None, lines_of(path)
    for at, line in enumerate(lines):
        block, head = BLOCK.match(line), FUNCTION.match(line)
        if block:
            of, kind = block_of("\n".join(lines[at:at + 20]).split("{")[0]), block["kind"]
        elif line == "}":
            of = kind = None
        elif head and (head["public"] or (kind == "trait" and of)) and not (kind == "impl" and of is None):
            text = contract_from(lines, at)
            clauses = [it for it in map(CLAUSE.match, text) if it]
            found.append(Contract(f"{of}::{head['name']}" if of else head["name"], path, first_sentence(comment_before(lines, at)),
                                  bool(clauses), [it["name"] for it in clauses if it["name"]], "\n".join(text)))
    return found
