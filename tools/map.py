#!/usr/bin/env python3
"""Which file is what, which files name an item of the grammar, and whether docs/DESIGN.md names what is there.

    map.py          prints what does not hold
    map.py files    prints each source, spec and file of lemmas, with the first sentence of its head comment
    map.py items    prints each file that names an item of the grammar, and which items it names

A file is named below crates/ and without its ending. Each of those that `files` prints has to begin with a sentence. A
link of the page, or a name in backticks with a slash, has to lead to a file or folder, and another name in backticks to
occur in the crates. A row of a call tree there has a function and its file: the function has to be in that file, and
the function that the row is indented below has to call it. A file names an item if it has one of the item's names as a
whole word. The status is 1 if something does not hold.
"""
import glob
import os
import re

from ending import ended
from functions import FUNCTION, extent
from repository import ROOT, read, rows, texts_of, told

PAGE = "docs/DESIGN.md"
SENTENCE = re.compile(r".*?\.(?= [A-Z`\[]|$)")
# A row of a call tree, and a name in backticks or one that a link leads to.
ROW = re.compile(r"( *)([\w:]+) +(sre_\w+/src/[\w/]+)(?: .*)?")
NAME = re.compile(r"(?:`|\]\()(\.?\w[\w*+.-]*(?:(?:/|::)[\w*+.-]+)*/?)[`)]")
# Files that answer for one function, or that list modules: these have no head comment.
HEADLESS = ("Answers", "Invariants", "Lib")

# Items whose names nothing else has, and what names them.
ITEMS = {
    "branch": r"Branch|BRANCH|ToBranch|is_branch|branch-ran|branch_turn",
    "atomic group": r"Atomic|ATOMIC_GROUP|ToGroupAtomically|AtomicMove|AtomicGroup|is_atomic|atomic[-_]\w+",
    "lookaround": r"Look|ASSERT|ASSERT_NOT|ToLook|LookMove|is_look|look_opcode",
    "possessive loop": r"PossessiveLoop|POSSESSIVE_REPEAT|ToRepeatPossessively|is_possessive",
    "back-reference": r"Reference|GROUPREF(_\w*IGNORE)?|ToRefer|is_reference|reference_opcode",
    "conditional": r"Exists|ExistsElse|GROUPREF_EXISTS|ToCheckGroup|is_exists",
}
NAMED = {item: re.compile(rf"(?<![\w-])(?:{names})(?![\w-])") for item, names in ITEMS.items()}
# The kit's patterns have a `Look` of their own: in the crates over these it is an item where it comes from Tree.
OVER_PATTERNS = ("sre_patterns/", "sre_finder/")
ITEMS_LOOK = re.compile(r"specs\.Tree\.\{[^}]*\bLook\b")


def files():
    """The names of the crates' files of code, specs and proofs, with their texts."""
    for crate in (name for name, _, _ in rows() if name.startswith("sre_")):
        for path, text in texts_of(f"{ROOT}/crates/{crate}").items():
            yield f"{crate}/{os.path.splitext(path)[0]}", text


def heads():
    """Each source, spec and file of lemmas with the sentence that it begins with; with none if it has none."""
    for name, text in files():
        if os.path.basename(name) not in HEADLESS:
            lines = re.match(r"(?:(?://!|--) .*\n)*", text)[0].split("\n")
            found = SENTENCE.match(" ".join(it[3:].strip() for it in lines).strip())
            yield name, found and found[0]


def items():
    """The files that name items, with these."""
    for name, text in files():
        is_kits = name.startswith(OVER_PATTERNS) and not ITEMS_LOOK.search(text)
        text = re.sub(r"\bLook\b", "", text) if is_kits else text
        named = [item for item, names in NAMED.items() if names.search(text)]
        if named:
            yield name, ", ".join(named)


def bodies(name, text):
    """The bodies of a text's functions of a name, without comments."""
    lines = text.split("\n")
    for at, line in enumerate(lines):
        begun = FUNCTION.match(line)
        if begun and begun[2] == name:
            end = at if line.endswith(";") else extent(lines, at, begun[1])[1]
            yield "\n".join(it for it in lines[at + 1 : end + 1] if not it.lstrip().startswith("//"))


def stale():
    """What does not hold."""
    yield from (f"{name} begins with no sentence on what it is" for name, said in heads() if not said)
    texts, page, above = dict(files()), read(f"{ROOT}/{PAGE}"), []
    words = set(re.findall(r"\w+", "\n".join(texts.values())))
    for name in sorted(set(NAME.findall(re.sub(r"(?m)^ {4}.*", "", page)))):
        forms = [f"{ROOT}/{at}{name}{end}" for at in ("", "docs/", "crates/") for end in ("", ".rt", ".antt")]
        if not any(map(glob.glob, forms)) and not ("/" not in name and words.issuperset(re.findall(r"\w+", name))):
            yield f"{PAGE}: there is no {name}"
    for indent, path, file in (it.groups() for it in map(ROW.fullmatch, page.split("\n")) if it):
        name = path.split("::")[-1]
        own = list(bodies(name, texts.get(file, "")))
        above = [it for it in above if it[0] < len(indent)]
        if not own:
            yield f"{PAGE}: {path} is not in {file}"
        elif above and not any(re.search(rf"\b{name}(?:::<[^()]*>)?\(", it) for it in above[-1][2]):
            yield f"{PAGE}: {above[-1][1]} does not call {path}"
        above.append((len(indent), path, own))


def main(words):
    lists = {"files": heads, "items": items}
    if not words:
        return told(stale())
    if words[1:] or words[0] not in lists:
        return None
    return print(*(f"{name}: {said}" for name, said in lists[words[0]]()), sep="\n") or 0


if __name__ == "__main__":
    ended(main)
