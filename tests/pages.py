#!/usr/bin/env python3
"""Checks what people read of this repository against what it is read about: that generated pages are current, that each link leads
somewhere, those to lines of code to the clause or function that they name, that words explained in READING.md are defined, that README and
docs/ keep their limits, that they, the comments of crates and the names in their code have no words that CONTRIBUTING.md replaces, that no
two crates have types of one name, that calls whose errors say too little are listed, and that each planted bug can still be planted.
Builds nothing. Ends with the line `N passed, M failed`."""
import glob
import os
import pathlib
import re
import subprocess
import sys

sys.path.insert(0, str(pathlib.Path(__file__).resolve().parents[1]))
from tests.support.places import TOP, parser_of
from tests.support.tally import Tally

README_WORDS, DOCS_WORDS, CONTENTS_FROM = 900, 23_500, 150
# Words that CONTRIBUTING.md replaces. "Tells you" may stand: it speaks to the reader.
UNUSUAL = re.compile(r"\b(?:behind|told|tells?(?! you\b)|taken\s+up|takes\s+up|kept\s+alike|passed\s+over|keeps\s+its\s+word)\b", re.I)
# The comment of a line, by the ending of its file: what follows the first mark that stands in no literal.
COMMENT = {
    ".rt": re.compile(r"""(?:[^"'/]|"(?:\\.|[^"\\])*"|'(?:\\.|[^'\\])'|'|/(?!/))*//[/!]?(.*)"""),
    ".antt": re.compile(r"(?:.*?\s)?--(?=\s|$)(.*)"),
}
# The same words in names, as parts of `snake_case` and `CamelCase`. Names of the Rattle kit stay as they are.
UNUSUAL_PART = re.compile(r"(?<![A-Za-z])(?:un|re)?(?:behind|told|tells?|telling|tak(?:e|es|en|ing)_up|kept_alike|passed_over)(?![a-z])"
                          r"|(?:Behind|Told|Tells?|Telling|Tak(?:e|es|en|ing)Up|KeptAlike|PassedOver)(?![a-z])")
# Comments and literals, in which no names stand.
NO_CODE = re.compile(r"""//.*|\bb?r(#*)".*?"\1|b?"(?:\\[\s\S]|[^"\\])*"|b?'(?:\\[^'\n]+|[^'\\\n])'(?!\w)""")
TYPE = re.compile(r"^(?:pub(?:\([a-z]+\))? )?(?:enum|struct|trait|type) (\w+)", re.M)
# Names of types that two crates of the program may have, each with the reason.
TWICE = {}
LINK = re.compile(r"(?<!!)\[[^\]]*\]\(([^)\s]+)\)|!\[[^\]]*\]\(([^)\s]+)\)")

LINE_LINK = re.compile(r"\[`(?:\w+::)*(\w+)`\]\(([^)\s#]+)#L(\d+)\)")


def read(path):
    with open(path, encoding="utf-8") as text:
        return text.read()


def pages():
    found = ["README.md", "CONTRIBUTING.md", *sorted(glob.glob("docs/*.md", root_dir=TOP)), *sorted(glob.glob("crates/*.md", root_dir=TOP)),
             *sorted(glob.glob("crates/*/README.md", root_dir=TOP)), *sorted(glob.glob("examples/**/*.md", root_dir=TOP, recursive=True))]
    return [page for page in found if os.path.isfile(os.path.join(TOP, page))]


def prose(page):
    """A page without its blocks of code."""
    return re.sub(r"^```.*?^```", "", read(os.path.join(TOP, page)), flags=re.M | re.S)


def anchors(page):
    """The names by which the headings of a page are linked to."""
    heads = re.findall(r"^#+ (.*)$", prose(page), flags=re.M)
    return {re.sub(r"[^\w\- ]", "", head.lower()).strip().replace(" ", "-") for head in heads}


def is_current(tally, *command):
    done = subprocess.run([os.path.join(TOP, command[0]), *command[1:]], cwd=TOP, capture_output=True, text=True, check=False)
    tally.check(" ".join(command), done.returncode == 0 and not (done.stdout + done.stderr).strip(), (done.stdout + done.stderr).strip()[:2000])


def links(tally):
    for page in pages():
        for target in (a or b for a, b in LINK.findall(prose(page))):
            if re.match(r"[a-z]+:", target):
                continue
            path, _, anchor = target.partition("#")
            there = os.path.normpath(os.path.join(os.path.dirname(page), path)) if path else page
            is_there = os.path.exists(os.path.join(TOP, there))
            # Of lines of code `clauses` looks what they have.
            if is_there and (not anchor or (anchor in anchors(there) if there.endswith(".md") else re.fullmatch(r"L\d+", anchor))):
                tally.passes()
            else:
                tally.fails(f"{page} links to {target}")


def clauses(tally):
    """Each link to a line of code leads to a line that begins the clause or the function which it names."""
    for page in pages():
        text = prose(page)
        found = LINE_LINK.findall(text)
        if len(found) < len(re.findall(r"\]\([^)\s]+#L\d+\)", text)):
            tally.fails(f"{page} links a line of code to something that is no name")
        for name, path, at in found:
            there = os.path.join(TOP, os.path.dirname(page), path)
            lines = read(there).splitlines() if os.path.isfile(there) else []
            line = lines[int(at) - 1] if 0 < int(at) <= len(lines) else ""
            if re.match(rf"\s*(?:(?:ensures|requires)\*? {name} \{{|(?:pub(?:\(\w+\))? )?fn {name}\b)", line):
                tally.passes()
            else:
                tally.fails(f"{page}: {name} does not begin at {path}#L{at}")


def terms(tally):
    """Each word that docs/READING.md explains begins a definition or a clause in a file to which its row leads, or else the lines before."""
    around = []
    for line in read(os.path.join(TOP, "docs", "READING.md")).splitlines():
        files = re.findall(r"\]\(\.\./(crates/[^)\s]+\.(?:rt|antt))\)", line)
        if " | " not in line:
            around = [] if line.startswith("#") else files or around
            continue
        texts = [read(os.path.join(TOP, file)) for file in files or around if os.path.isfile(os.path.join(TOP, file))]
        for name in re.findall(r"`(?:\w+ )?(\w+)`", line.split(" | ")[0]) if texts else ():
            begins = rf"\b(?:abbrev|data|ensures|fn|ghost|pub|record|requires) (?:pub )?{name}\b"
            if any(re.search(begins, text) for text in texts):
                tally.passes()
            else:
                tally.fails(f"docs/READING.md: {name} is not defined in {', '.join(files or around)}")


def sizes(tally):
    words = len(read(os.path.join(TOP, "README.md")).split())
    tally.check(f"README.md has at most {README_WORDS} words", words <= README_WORDS, words)
    words = sum(len(read(os.path.join(TOP, page)).split()) for page in pages() if page.startswith("docs/"))
    tally.check(f"docs/ has at most {DOCS_WORDS} words", words <= DOCS_WORDS, words)
    for page in pages():
        lines = prose(page).splitlines()
        if page.startswith("docs/") and len(lines) > CONTENTS_FROM:
            tally.check(f"{page} has a table of contents", any(line.count("](#") for line in lines[:30]))


def comments(path):
    """The comments of a source file, each on its line."""
    mark = COMMENT[os.path.splitext(path)[1]]
    found = [mark.match(line) for line in read(path).splitlines()]
    return "\n".join(it[1] if it else "" for it in found)


def unusual(text):
    """The unusual words of a text, each with the number of its line. Code and what is quoted do not count."""
    text = re.sub(r"^```.*?^```", lambda block: "\n" * block[0].count("\n"), text, flags=re.M | re.S)
    text = re.sub(r'`[^`\n]*`|"[^"\n]*"', "", text)
    return [(text.count("\n", 0, it.start()) + 1, " ".join(it[0].split())) for it in UNUSUAL.finditer(text)]


def sources(crate):
    """The files of a crate that have comments."""
    found = [path for part in ("src", "specs", "proofs") for path in glob.glob(f"crates/{crate}/{part}/**", root_dir=TOP, recursive=True)]
    return sorted(path for path in found if os.path.splitext(path)[1] in COMMENT)


def words(tally):
    """Pages and comments have no unusual words."""
    texts = [(page, read(os.path.join(TOP, page))) for page in pages() if not page.startswith("crates/")]
    for crate in sorted(os.listdir(os.path.join(TOP, "crates"))):
        texts += [(path, comments(os.path.join(TOP, path))) for path in sources(crate)]
    for path, text in texts:
        found = [f"{path}:{line}: {word!r}" for line, word in unusual(text)]
        for it in found:
            tally.fails(it)
        if not found:
            tally.passes()


def names(tally):
    """Names in the program's code have no unusual words, and the name of a type means one thing in all of its crates."""
    types = {}
    for path in sorted(glob.glob("crates/*/src/**/*.rt", root_dir=TOP, recursive=True)):
        crate = path.split(os.sep)[1]
        if crate.startswith("test"):
            continue
        code = NO_CODE.sub("", read(os.path.join(TOP, path)))
        found = sorted({name for name in re.findall(r"\w+", code) if UNUSUAL_PART.search(name)})
        if found:
            tally.fails(f"{path} has the names {', '.join(found)}")
        else:
            tally.passes()
        for name in TYPE.findall(code):
            types.setdefault(name, set()).add(crate)
    for name, crates in sorted(types.items()):
        if len(crates) == 1 or name in TWICE:
            tally.passes()
        else:
            tally.fails(f"{name} is a type in {', '.join(sorted(crates))}")


def planted(edit):
    """What a planted bug replaces, in turn: a file, the text there, and the text that it puts there, each of one line, as rt reads them."""
    found, file, old = [], None, None
    for line in read(edit).splitlines():
        key, _, text = line.partition(":")
        text = text.removeprefix(" ")
        if key == "file":
            file = text.strip()
        elif key == "old":
            # Two of these without a new one between them are no pair, nor are two new ones.
            found, old = found + [(file, text, None)] if old is not None else found, text
        elif key == "new":
            found, old = [*found, (file, old, text)], None
    return found


def bugs(tally):
    """Each text that a planted bug replaces stands once in its file, at its turn."""
    for edit in sorted(glob.glob("crates/*/must-fail/*.edit", root_dir=TOP) + glob.glob("crates/*/wrong-bodies/**/*.edit", root_dir=TOP, recursive=True)):
        crate = os.path.join(TOP, *edit.split(os.sep)[:2])
        texts = {}
        for file, old, new in planted(os.path.join(TOP, edit)):
            if old is None or new is None:
                tally.fails(f"{edit}: a text of several lines")
                break
            text = texts.get(file) or read(os.path.join(crate, file))
            if text.count(old) != 1:
                tally.fails(f"{edit}: {text.count(old)} times in {file}: {old!r}")
                break
            texts[file] = text.replace(old, new)
        else:
            tally.passes()


def main():
    parser_of(__doc__).parse_args()
    tally = Tally()
    is_current(tally, "bin/list-crates", "--check")
    is_current(tally, "bin/make-manual", "--check")
    is_current(tally, "bin/link-clauses", "--check")
    is_current(tally, "bin/draw-walk", "--check")
    is_current(tally, "bin/silent-refusals")
    links(tally)
    clauses(tally)
    terms(tally)
    sizes(tally)
    words(tally)
    names(tally)
    bugs(tally)
    tally.end()


if __name__ == "__main__":
    main()
