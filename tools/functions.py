"""The functions that a crate's sources have, as a check names them. The sources have the form that `rt fmt` gives.

Functions that macros write and those inside others are left out.
"""
import functools
import re

FUNCTION = re.compile(r'( *)(?:pub(?:\([\w:]+\))? )?(?:const )?(?:extern "C" )?fn (\w+)')
TYPE = re.compile(r"(?m)^(?:pub(?:\([\w:]+\))? )?(?:struct|enum) (\w+)")
OWN_METHODS = re.compile(r"impl(?:<.*?>)? (\w+)(?:<.*>)? \{")
TRAITS_METHODS = re.compile(r"(?:unsafe )?impl(?:<(.*?)>)? (\w+)(?:<(.*)>)? for (.*) \{")


class Function:
    """A function: its file, its first and last line there, with what is written on it, the name of its cycle, if it is
    in one, and whether it is a trait's."""

    def __init__(self, file, begin, end, cycle, is_of_trait):
        self.file, self.begin, self.end, self.cycle, self.is_of_trait = file, begin, end, cycle, is_of_trait

    def parts(self, texts):
        """The text of its file in three parts: before it, it, and behind it."""
        lines = texts[self.file].split("\n")
        ends = [lines[: self.begin], lines[self.begin : self.end + 1], lines[self.end + 1 :]]
        return ["".join(f"{it}\n" for it in part) for part in ends]

    def text(self, texts):
        return self.parts(texts)[1]


def module_of(file):
    """The path of a file's module: of src/a/b.rt it is a::b, and of the root's none."""
    path = file.removeprefix("src/").removesuffix(".rt").split("/")
    return [] if path in (["lib"], ["main"]) else path


def extent(lines, at, indent):
    """The first and last line of the function that begins at a line: from what is written on it to its last brace."""
    begin = at
    while begin and re.match(rf"{indent}(//|#\[)", lines[begin - 1]):
        begin -= 1
    is_short = lines[at].endswith("}") and lines[at].count("{") == lines[at].count("}")
    return begin, at if is_short else next(i for i in range(at, len(lines)) if lines[i] == f"{indent}}}")


def name_of_impl(parameters, trait, arguments, of):
    """How a check names a trait's impl: RefSliceU8StrDrive for `impl<'a> StrDrive for &'a [u8]`."""
    listed = [it for it in (arguments or "").split(", ") if it not in re.findall(r"\w+", parameters or "")]
    parts = [re.sub(r"'\w+ ?|<.*", "", it).replace("&", "ref ").replace("[", "slice ") for it in (of, trait, *listed)]
    return "".join(it[0].upper() + it[1:] for it in re.findall(r"\w+", " ".join(parts)))


@functools.lru_cache(maxsize=1024)
def functions_of(file, text, owners):
    """The functions of one source, by their paths, where these are the modules of the crate's types."""
    found, lines, owner, of_trait, owners = {}, text.split("\n"), module_of(file), None, dict(owners)
    for at, line in enumerate(lines):
        if re.match(r"((unsafe )?impl|(pub )?trait|(pub )?mod \w+ \{|macro_rules!)", line):
            own, of_trait = OWN_METHODS.match(line), TRAITS_METHODS.match(line)
            owner = [*owners[own[1]], own[1]] if own and own[1] in owners else None
            owner = [*module_of(file), name_of_impl(*of_trait.groups())] if of_trait else owner
        elif line.startswith("}"):
            owner, of_trait = module_of(file), None
        head = FUNCTION.match(line)
        if head and owner is not None and len(head[1]) == (0 if owner == module_of(file) else 4):
            begin, end = extent(lines, at, head[1])
            cycle = re.search(r"#\[cycle\((\w+)\)\]", "\n".join(lines[begin:at]))
            path = "::".join([*owner, head[2]])
            found[path] = Function(file, begin, end, cycle[1] if cycle else "", bool(of_trait))
    return found


def functions(texts, with_traits=False):
    """The functions of sources, by their paths: those of traits' impls if they are asked for."""
    sources_of = {file: text for file, text in texts.items() if file.endswith(".rt")}
    owners = {(it, tuple(module_of(file))) for file, text in sources_of.items() for it in TYPE.findall(text)}
    found = {}
    for file, text in sources_of.items():
        found.update(functions_of(file, text, frozenset(owners)))
    return {path: it for path, it in found.items() if with_traits or not it.is_of_trait}


def begin_of_body(lines, indent):
    """The line of a function's text that its body's first brace ends; none where the body is on one line with all."""
    alone = [i for i, line in enumerate(lines) if line == f"{indent}{{"]
    behind = [i for i, line in enumerate(lines) if line.endswith(" {") and not line.endswith("}")]
    return next(iter([*alone, *behind]), None)


def emptied(texts, kept):
    """The texts with a panic as the body of each function, but for those of kept functions and of cycles. They have as
    many lines as before."""
    lines = {file: text.split("\n") for file, text in texts.items()}
    for path, it in functions(texts).items():
        own = lines[it.file][it.begin : it.end + 1]
        begin = begin_of_body(own, re.match(" *", own[-1])[0])
        if path not in kept and not it.cycle and begin is not None:
            lines[it.file][it.begin + begin + 1 : it.end] = ["unreachable!()", *[""] * (len(own) - begin - 3)]
    return {file: "\n".join(it) for file, it in lines.items()}
