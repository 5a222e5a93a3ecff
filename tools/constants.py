"""Bytecode of patterns as constants of a Rust file, with the numbers of named groups, in the layout of `rt fmt`."""
import re
import sys
import textwrap

# The columns that `rt fmt` gives a line at most, a row where there are several, and a list on the line of its head.
COLUMNS, ROW_COLUMNS, LIST_COLUMNS = 100, 99, 60
SHOWN = 92  # of a pattern, in a comment
INDENT = ' ' * 4
NAME = re.compile('[A-Z][A-Z0-9_]{0,47}')


def listed(head, values):
    """A constant that is a list of numbers."""
    text = ', '.join(map(str, values))
    line, row = f'{head} = [{text}];', f'{INDENT}{text},'
    if len(text) <= LIST_COLUMNS and len(line) <= COLUMNS:
        return line
    rows = [row] if len(row) <= COLUMNS else textwrap.wrap(
        text + ',', ROW_COLUMNS, initial_indent=INDENT, subsequent_indent=INDENT)
    return '\n'.join([f'{head} = [', *rows, '];'])


def shown(source):
    """The lines of a comment that quote a pattern as it is, or escaped if a comment could not show it, and whether one
    of them is cut into pieces."""
    lines = (source if isinstance(source, str) else source.decode('latin-1')).split('\n')
    is_quoted = all(line.isprintable() and line == line.rstrip() for line in lines) and source
    if not is_quoted or isinstance(source, bytes) and not source.isascii():
        lines = [ascii(source)]
    pieces = [line[at:at + SHOWN] for line in lines for at in range(0, len(line) or 1, SHOWN)]
    return [f'///     {it}'.rstrip() for it in pieces], len(pieces) > len(lines)


def comment(pattern, known):
    """What is above the bytecode: the pattern, its flags, those that it sets itself among them, and whose words."""
    flags = pattern.flags | pattern.tree.state.flags
    # a pattern of characters has u by itself
    letters = ''.join(letter for letter, flag in known.items() if flags & flag and letter != 'u')
    kind = 'bytes' if isinstance(pattern.source, bytes) else 'characters'
    lines, is_cut = shown(pattern.source)
    head = '/// Words of CPython {}.{} for a pattern of {}, {}{}:'.format(
        *sys.version_info[:2], kind, f'flags {letters}' if letters else 'no flags',
        f', {SHOWN} characters a line' if is_cut else '')
    return '\n'.join([head, '///', *lines])


def faults(named):
    """What keeps names from being constants: one line for each."""
    for name, pattern in named:
        if not NAME.fullmatch(name):
            yield f'{ascii(name)} is no name: write up to 48 capital letters, digits and _, with a letter in front'
        for number, group in pattern.names().items():
            if not re.fullmatch('[A-Za-z0-9_]+', group):
                yield f'{name}: group {number}, {ascii(group)}, is no name of Rust: write it in letters of ASCII'


def file_of(named, cut, known):
    """The file: for each name and pattern the words, and the numbers of groups. `cut` makes words of a pattern, and
    `known` has flags by their letters."""
    items = []
    for name, pattern in named:
        words = cut(pattern)
        items.append(f'{comment(pattern, known)}\n{listed(f"pub const {name}: [u32; {len(words)}]", words)}')
        for number, group in pattern.names().items():
            items.append(f'/// Group {number} of [`{name}`], `{group}`.\n'
                         f'pub const {name}_{group.upper()}: usize = {number};')
    return '\n\n'.join(items)
