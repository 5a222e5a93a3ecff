"""Whether the header of sre_c declares what the crate exports: its statuses, its structs and its functions.

A caller in C compiles against include/sre.h alone, and nothing else compares it with the crate. So what the sources
have is written here as C declares it, and compared with the header, declaration by declaration: each status by its
number, each struct by its fields in order, each function by its parameters. A slice is a pointer and a count, and a
`Global` is nothing. The gate asks for it (`standing.py`).

The number of an ABI is computed from these declarations. The crate returns it, and the header and the modules in Python
and Rust have it as a constant. So whoever changes a declaration has to change the number, and to look at each module.
"""
import hashlib
import re

from repository import ROOT, read

CRATE = f"{ROOT}/crates/sre_c"
HEADER = "crates/sre_c/include/sre.h"
SOURCES = ("status", "types", "code", "pattern", "lib")
# What returns the number of the ABI, and the modules that declare the structs anew: how each writes the number.
NUMBERED = {
    "crates/sre_c/src/lib.rt": r"fn sre_abi\(\) -> u32\n    ensures \{ result ≡ (\d+) \}",
    "python/gaffsilver/_library.py": r"(?m)^ABI = (\d+)\b",
    "embedding/sre.rs": r"const ABI: u32 = (\d+);",
}
# The program by which the library is built without its proofs.
CALLER = "tests/exports.rt"
# The file of sre_chars with the struct that the crate takes from there, and what C calls it.
PAIRS, CALLED = "crates/sre_chars/src/table/entries.rt", {"UniPair": "sre_pair"}

NUMBERS = {"u8": "uint8_t", "u16": "uint16_t", "u32": "uint32_t", "u64": "uint64_t", "usize": "size_t",
           "isize": "ptrdiff_t", "bool": "bool"}
# A capability is nothing in C, and what a pattern keeps is the library's.
OTHERS = {"Global": [], "KeptSlot": ["void *{}"]}
POINTER = re.compile(r"&(?:'a )?(mut )?(\[?)(\w+)(?:<'\w+>|\])?")

STATUS = re.compile(r"Status::(\w+) => (\d+),")
STRUCT = re.compile(r"#\[repr\(C\)\]\n(?:#\[[^\n]*\]\n)*pub struct (\w+)(?:<'a>)? \{\n(.*?)\n\}", re.S)
FIELD = re.compile(r"    (?:pub )?(\w+): (.*),")
EXPORT = re.compile(r'#\[unsafe\(no_mangle\)\]\npub extern "C" fn (\w+)\(([^)]*)\)(?: -> (\w+))?\n')
PARAMETER = re.compile(r"(\w+): ([^,]+)")
SIZE = re.compile(r"size_of::<(\w+)>\(\) == (\d+)")

COMMENT = re.compile(r"/\*.*?\*/|//[^\n]*", re.S)
DEFINED = re.compile(r"(?m)^#define (SRE_\w+) (\d+)\b")
C_STRUCT = re.compile(r"typedef struct (\w+) \{(.*?)\} \1;", re.S)
C_SIZE = re.compile(r"sizeof\((\w+)\) == (\d+)")
C_FUNCTION = re.compile(r"(?m)^(\w+) (\w+)\(([^;{}]*)\);")


def in_words(name):
    """A name such as NoRoom, with its words apart: no_room."""
    return re.sub(r"(?<=[a-z0-9])(?=[A-Z])", "_", name).lower()


def type_of(written):
    """How C writes a type: a number's, or a struct's."""
    return NUMBERS.get(written) or CALLED.get(written) or in_words(written)


def declared(name, written):
    """How C declares a field or a parameter of a type: in one part, a slice in two, and a `Global` in none."""
    if written in OTHERS:
        return [it.format(name) for it in OTHERS[written]]
    found = POINTER.fullmatch(written)
    if not found:
        return [f"{type_of(written.partition('<')[0])} {name}"]
    pointer = f"{'' if found[1] else 'const '}{type_of(found[3])} *{name}"
    return [pointer, f"size_t {name}_count"] if found[2] else [pointer]


def joined(pairs):
    return ", ".join(it for name, written in pairs for it in declared(name, written))


def exported():
    """What the crate exports, as C declares it, by the name, and the number of all that."""
    status, types, code, pattern, root = (read(f"{CRATE}/src/{it}.rt") for it in SOURCES)
    found = {f"SRE_{in_words(name).upper()}": number for name, number in STATUS.findall(status)}
    structs = STRUCT.findall(types + code + pattern + read(f"{ROOT}/{PAIRS}"))
    found.update({type_of(name): joined(FIELD.findall(body)) for name, body in structs})
    for name, parameters, result in EXPORT.findall(root):
        found[name] = f"{type_of(result) if result else 'void'} ({joined(PARAMETER.findall(parameters)) or 'void'})"
    lines = "".join(f"{name}: {it}\n" for name, it in sorted(found.items()))
    # an `int` in C
    return {**found, "SRE_ABI": str(int(hashlib.sha256(lines.encode()).hexdigest()[:8], 16) >> 1)}


def in_header():
    """What the header declares, by the name."""
    text = COMMENT.sub("", read(f"{ROOT}/{HEADER}"))
    found = dict(DEFINED.findall(text))
    for name, body in C_STRUCT.findall(text):
        found[name] = ", ".join(" ".join(it.split()) for it in body.split(";") if it.strip())
    for result, name, parameters in C_FUNCTION.findall(text):
        found[name] = f"{result} ({' '.join(parameters.split())})"
    return found


def other_numbers(number):
    """Where another number of the ABI, or another size of a struct, is written than that of the declarations."""
    header = read(f"{ROOT}/{HEADER}")
    sizes = dict(C_SIZE.findall(header))
    for name in sorted({name for name, _ in C_STRUCT.findall(header)} - {*sizes}):
        yield f"{HEADER} has no size of {name}"
    for path, form in NUMBERED.items():
        text = read(f"{ROOT}/{path}")
        if re.findall(form, text) != [number]:
            yield f"{path} has another ABI than {number}: compare its structs with the header, and then write that"
        for name, size in SIZE.findall(text):
            if sizes.get(type_of(f"Sre{name}")) != size:
                yield f"{path} has {name} with the size {size}"


def uncalled():
    """What the program that calls each export lacks: an export, or a field of a struct."""
    text = read(f"{ROOT}/{CALLER}")
    types, code, pattern, root = (read(f"{CRATE}/src/{it}.rt") for it in SOURCES[1:])
    names = [it[0] for it in EXPORT.findall(root)]
    names += [it for _, body in STRUCT.findall(types + code + pattern) for it, _ in FIELD.findall(body)]
    for name in dict.fromkeys(names):
        if not re.search(rf"\b{name}\b", text):
            yield f"{CALLER} lacks {name}, so no library is built without proofs"


def unlike():
    """What differs between the header and the crate, and what its caller lacks."""
    own, there = exported(), in_header()
    for name in sorted({*own, *there}):
        in_c, in_crate = (it.get(name, "nothing") for it in (there, own))
        if in_c != in_crate:
            yield f"{HEADER} has {name} as {in_c}, and sre_c as {in_crate}"
    yield from other_numbers(own["SRE_ABI"])
    yield from uncalled()
    marked = read(f"{CRATE}/src/lib.rt").count("no_mangle")
    if marked != sum(it.startswith(("uint32_t (", "void (")) for it in own.values()):
        yield f"crates/sre_c/src/lib.rt marks {marked} functions, and not all of them are read"
