#!/usr/bin/env python3
"""The bytecode of Python's patterns, as cases for the program `sre_cases` (docs/PROGRAM.md).

    words.py VERB PATTERN [TEXT]        writes the case; the verb is match, search, walk or check
    words.py --raw VERB WORDS [TEXT]    does so for bytecode instead of a pattern
    words.py --cases FILE NAME          writes NAME.txt and NAME.expected from a file of patterns
    words.py --rust NAME PATTERN ..     writes each pattern's bytecode and the numbers of its named groups as constants
    words.py --tree PATTERN             writes the pattern's tree as a Rust expression of `Part`

CPython's own compiler makes the bytecode. Flags add up: `-f im` is `-f i -f m`. If a text has letters past ASCII, which
the program's table lacks, a line on standard error says so. It runs under CPython 3.11 to 3.13; --try needs the Rattle
kit as well. The status is 0; 1 if the answers differ, or if --items finds that the bytecode is rejected; 2 after a
fault, which is a line on standard error.
"""
import argparse
import contextlib
import os
import re
import shutil
import signal
import subprocess
import sys
import tempfile
import textwrap
import typing
import warnings

# An older Python ends here with a line, if it can read so far: this file and those that import it have no syntax that
# Python 3.6 lacks, and import what has such a syntax, or is not there, below.
SERVES = 'run it with CPython 3.11, 3.12 or 3.13'
COMMAND = os.path.basename(sys.argv[0])
try:
    import _sre
    from re import _compiler, _constants, _parser
except ImportError:
    print(f'{COMMAND}: this is Python {sys.version.split()[0]}, whose compiler of patterns is elsewhere: {SERVES}',
          file=sys.stderr)
    sys.exit(2)

import constants
import trees
from ending import Fault, ended
from grammar import CATEGORIES, NUMBER, OPCODES, POSITIONS, UNLIMITED, Reader, case_words
from listing import Listing, unknown_letters
from repository import ROOT, write

# What Python says of patterns that a later one may read otherwise is no matter of the bytecode.
warnings.simplefilter('ignore')

# CPython 3.11, 3.12 and 3.13: the layouts of their bytecode were compared.
MAGICS = (20220615, 20221023, 20230612)
FLAGS = {'i': re.I, 'm': re.M, 's': re.S, 'x': re.X, 'a': re.A, 'u': re.U, 'L': re.L}
VERBS = ('match', 'search', 'walk', 'check')
KEYS = ('name', 'flags', 'verb', 'window', 'pattern', 'text', 'bytes')


def require_known_numbers():
    """Rejects a Python whose bytecode can mean something else."""
    theirs = ([code.name for code in _constants.OPCODES],
              [code.name.removeprefix('AT_') for code in _constants.ATCODES],
              [code.name.removeprefix('CATEGORY_') for code in _constants.CHCODES],
              _constants.MAXREPEAT, _sre.CODESIZE)
    if theirs != (OPCODES, POSITIONS, CATEGORIES, UNLIMITED, 4) or _constants.MAGIC not in MAGICS:
        raise Fault(f'the opcodes of this Python (magic {_constants.MAGIC}) differ from those of '
                    f'the project, or can have another layout: {SERVES}')


def require_program(path):
    """Rejects a program that is not there, and says how it is built."""
    if shutil.which(path) is None:
        raise Fault(f'{path} is no program; `cd crates/sre_cases && rt run -- FILE` builds out/sre_cases there')


class Pattern(typing.NamedTuple):
    """A pattern with its flags as a number, the tree that `re` parses it to, and its bytecode."""
    source: str | bytes
    flags: int
    tree: object
    words: list

    def names(self):
        """The names of groups, by the groups' numbers."""
        return {number: name for name, number in self.tree.state.groupdict.items()}


class Asked(typing.NamedTuple):
    """What a case needs besides a pattern; `window` is its range, None or two positions."""
    verb: str
    text: str | bytes
    window: tuple | None = None
    match_all: bool = False


def compiled(source, flags):
    """The pattern that `source` is, or Python's own message as a fault."""
    try:
        tree = _parser.parse(source, flags)
        return Pattern(source, flags, tree, [int(word) for word in _compiler._code(tree, flags)])
    except (re.error, ValueError, OverflowError) as error:
        raise Fault(f'bad pattern {ascii(source)}: {error}') from None


def without_block(words, is_cut=True):
    """Bytecode without the INFO block in front, whose skip is at address 1; all of it if nothing is cut."""
    return words[1 + words[1]:] if is_cut and words[0] == NUMBER['INFO'] else words


def words_of(written):
    """The bytecode that is written as a case has it."""
    words = [int(number) for number in re.findall('[0-9]{1,10}', written)]
    if case_words(words) != written or max(words, default=0) > UNLIMITED:
        raise Fault(f'{ascii(written)} is no bytecode: write numbers up to {UNLIMITED} with commas, or - for none')
    return words


def characters(value, is_bytes, escapes=False):
    """A pattern or a text as it is given; with `escapes`, Python's escapes in it count."""
    try:
        if is_bytes:
            octets = os.fsencode(value)
            return octets.decode('unicode_escape').encode('latin-1') if escapes else octets
        text = value.encode('latin-1', 'backslashreplace').decode('unicode_escape') if escapes else value
        text.encode()
        return text
    except UnicodeError as error:
        raise Fault(f'{ascii(value)} is no text: {error.reason}') from None


def window_of(written):
    """The range that is written as `all` or `START..END`."""
    if written == 'all':
        return None
    ends = re.fullmatch(r'(0|[1-9][0-9]{0,19})\.\.(0|[1-9][0-9]{0,19})', written)
    window = ends and tuple(map(int, ends.groups()))
    if not window or max(window) >= 2 ** 64:
        raise Fault(f'{written} is no range: write all, or START..END with numbers below 2^64')
    return window


def pattern_of(source, flags, is_bytes):
    """The pattern that is given, with flags as letters, in one text or several."""
    letters = ''.join(flags)
    unknown = ''.join(letter for letter in letters if letter not in FLAGS)
    if unknown:
        raise Fault(f'unknown flags {unknown}: take letters of {"".join(FLAGS)}')
    return compiled(characters(source, is_bytes), sum(FLAGS[letter] for letter in set(letters)))


def case_line(words, asked):
    """The line of a case file for this bytecode."""
    if asked.verb == 'check':
        return f'check {case_words(words)}'
    text = 'b:' + asked.text.hex() if isinstance(asked.text, bytes) else 's:' + asked.text.encode().hex()
    window = '{}..{}'.format(*asked.window) if asked.window else 'all'
    return f'{asked.verb} {case_words(words)} {text} {window} {"f" if asked.match_all else "-"}'


def of_words(pattern, words):
    """The compiled pattern with this bytecode instead of its own."""
    state = pattern.tree.state
    return _sre.compile(
        pattern.source, pattern.flags | state.flags, words, state.groups - 1, {}, (None,) * state.groups)


def matches(pattern, asked):
    """Python's matches, one after the other. In `re` only `fullmatch` needs matches that end at the end of the range;
    else END_STRING before the last SUCCESS does."""
    window = [min(place, sys.maxsize) for place in asked.window or (0, sys.maxsize)]
    asking = re.compile(pattern.source, pattern.flags)
    if asked.verb == 'match' and asked.match_all:
        return filter(None, [asking.fullmatch(asked.text, *window)])
    if asked.match_all:
        at_end = [NUMBER['AT'], POSITIONS.index('END_STRING'), NUMBER['SUCCESS']]
        asking = of_words(pattern, without_block(pattern.words)[:-1] + at_end)
    scanner = asking.scanner(asked.text, *window)
    return iter(scanner.match if asked.verb == 'match' else scanner.search, None)


def answer(pattern, asked):
    """Python's answer as the program prints it; of `check` the first word alone. Capture slots are listed up to the
    last one that is set."""
    if asked.verb == 'check':
        return 'ok'
    found = matches(pattern, asked)
    if asked.verb == 'walk':
        return ' '.join('{}..{}'.format(*match.span()) for match in found) or 'none'
    match = next(found, None)
    if match is None:
        return 'no'
    marks = [place for span in match.regs[1:] for place in span]
    while marks and marks[-1] < 0:
        marks.pop()
    shown = ','.join('-' if place < 0 else str(place) for place in marks) or 'none'
    return 'yes {}..{} last {} marks {}'.format(*match.span(), match.lastindex or -1, shown)


def blocks_of(path):
    """The blocks of a file of patterns, between which are empty lines: the values of each by key."""
    with open(path, encoding='utf-8', errors='surrogateescape') as file:
        blocks = re.split(r'\n{2,}', file.read())
    for lines in filter(None, ([it for it in block.split('\n') if it and it[0] != '#'] for block in blocks)):
        fields = {key: [] for key in KEYS}
        for key, colon, value in (line.partition(':') for line in lines):
            if not colon or key not in KEYS:
                raise Fault(f'{path}, the block of {lines[0]}: write one of {", ".join(KEYS)}, and a colon')
            fields[key].append(value.removeprefix(' '))
        yield fields


def cases_of(fields, cut):
    """The bytecode, the lines and the answers of a block."""
    verb, is_bytes = ''.join(fields['verb']) or 'search', bool(fields['bytes'])
    if not (fields['name'] and fields['pattern'] and is_bytes != bool(fields['text'])
            and verb in ('match', 'search', 'walk', 'fullmatch')):
        raise Fault('a block has a name, a pattern, either text or bytes, and optionally a verb: '
                    'match, search, walk or fullmatch')
    pattern = pattern_of('\n'.join(fields['pattern']), fields['flags'], is_bytes)
    words = without_block(pattern.words, cut)
    asked = [Asked(verb.removeprefix('full'), characters(text, is_bytes, True),
                   window_of(''.join(fields['window']) or 'all'), verb == 'fullmatch')
             for text in fields['text'] + fields['bytes']]
    note = f'# {fields["name"][0]}: ' + '\\n'.join(fields['pattern'])
    return words, [note, *(case_line(words, it) for it in asked)], [answer(pattern, it) for it in asked]


def write_cases(path, name, cut):
    """Writes NAME.txt and NAME.expected from a file of patterns."""
    opcodes, lines, answers = set(), [], []
    for fields in blocks_of(path):
        try:
            words, more_lines, more_answers = cases_of(fields, cut)
        except Fault as fault:
            named = ''.join(fields['name'][:1]) or ''.join(fields['pattern'])
            raise Fault(f'{path}, the block of {named}: {fault}') from None
        opcodes |= Reader(words).used & {*OPCODES}
        lines += more_lines
        answers += more_answers
    version = '.'.join(map(str, sys.version_info[:3]))
    head = (f'Patterns in use. Words and answers are those of CPython {version}, as tools/words.py '
            f'wrote them from {path}. Executes {", ".join(sorted(opcodes, key=NUMBER.get))}.')
    notes = textwrap.wrap(head, 120, initial_indent='# ', subsequent_indent='# ')
    for end, written in (('txt', notes + lines), ('expected', answers)):
        write(f'{name}.{end}', ''.join(f'{line}\n' for line in written))


@contextlib.contextmanager
def limited(seconds, what):
    """Ends what is done here by a fault if it takes longer."""

    def stop(*_):
        raise Fault(f'{what} has no answer after {seconds} s; --seconds N gives it more')

    signal.signal(signal.SIGALRM, stop)
    signal.setitimer(signal.ITIMER_REAL, seconds)
    try:
        yield
    finally:
        signal.setitimer(signal.ITIMER_REAL, 0)


def answer_of(options, line):
    """The program's answer to a case: that of --run, or that of a build without proofs."""
    with tempfile.TemporaryDirectory() as room:
        write(f'{room}/cases', f'{line}\n')
        if options.run is not None:
            with limited(options.seconds, options.run):
                done = subprocess.run([options.run, *options.table, f'{room}/cases'], capture_output=True, text=True)
            return (done.stdout + done.stderr).strip() or f'nothing, and status {done.returncode}'
        print(f'{COMMAND}: building sre_cases without proofs: one to two minutes', file=sys.stderr)
        tried = ['rt', 'try', '--seconds', str(options.seconds), '--', f'{room}/cases']
        done = subprocess.run(tried, cwd=f'{ROOT}/crates/sre_cases', capture_output=True, text=True)
    if done.returncode or not done.stdout.strip():
        raise Fault(*(done.stderr.strip().splitlines() or ['rt try prints nothing']))
    return done.stdout.strip()


def compare(options, line, names, expected):
    """Writes the case, the names of groups and both answers, and returns the status: 0 if they are the same, or if
    the bytecode is of no pattern, so that Python has no answer."""
    ours = answer_of(options, line)
    is_same = expected in (None, ours.split()[0] if line.startswith('check ') else ours)
    shown = {'case': line, 'names': ', '.join(f'{number} {name}' for number, name in names.items()),
            'Python': expected, 'ours': ours}
    print(*(f'{what:<8}{shown[what]}' for what in shown if shown[what]), sep='\n')
    if expected is not None:
        print('same' if is_same else 'different')
    return int(not is_same)


def arguments():
    parser = argparse.ArgumentParser(
        description=__doc__, formatter_class=argparse.RawDescriptionHelpFormatter, allow_abbrev=False)
    add = parser.add_argument
    add('words', nargs='*', metavar='VERB PATTERN TEXT',
        help=f'{", ".join(VERBS)}; a pattern; a text for every verb but check; after -- if one begins with a dash')
    add('-f', '--flags', action='append', default=[], metavar='LETTERS', help=f'of {"".join(FLAGS)}, as in re')
    add('-w', '--window', default='all', metavar='I..J', help='the range in the text, or all')
    add('--match-all', action='store_true', help='a match has to end at the end of the range')
    add('--bytes', action='store_true', help='pattern and text are bytes')
    add('--no-block', action='store_true', help='cut the INFO block off the bytecode')
    add('--raw', action='store_true', help='instead of a pattern there is bytecode, as a case has it')
    add('--items', action='store_true', help='list the bytecode, or up to where it is rejected, and why (BYTECODE)')
    add('--table', type=lambda it: ['--table', it], default=[], metavar='FILE', help='a table for --run (unicode.py)')
    add('--seconds', type=int, default=20, metavar='N', help='seconds for the program, and for Python (20)')
    add = parser.add_mutually_exclusive_group().add_argument
    add('--try', dest='attempt', action='store_true', help="as --run, with sre_cases as `rt try` builds it")
    add('--run', metavar='PROGRAM', help="run sre_cases, and compare its answer with Python's")
    add('--cases', nargs=2, metavar=('FILE', 'NAME'), help='write a case file from patterns')
    add('--rust', action='store_true', help='write bytecode as constants: NAME PATTERN, or several such pairs')
    add('--tree', metavar='PATTERN', help='write the tree of a pattern as a Rust expression (--tree=-x for -x)')
    return parser


def one_case(options):
    """Does what the options say with one pattern, and returns the status."""
    verb, *given = options.words or ['']
    if verb not in VERBS or len(given) != 2 - (verb == 'check'):
        raise Fault('write match, search or walk, a pattern and a text, or check and a pattern; '
                    '--help lists the options')
    if options.run is not None:
        require_program(options.run)
    if options.attempt and not (shutil.which('rt') and os.path.isdir(f'{ROOT}/crates/sre_cases')):
        raise Fault('--try needs the Rattle kit (`rt` on the path) and the folder crates/sre_cases')
    if options.table and options.run is None:
        raise Fault('--table names a table for the program: write --run PROGRAM as well')
    if options.raw and (options.flags or options.no_block):
        raise Fault('--raw takes bytecode as it is, and neither --flags nor --no-block')
    pattern = None if options.raw else pattern_of(given[0], options.flags, options.bytes)
    code = without_block(pattern.words, options.no_block) if pattern else words_of(given[0])
    listing = Listing(code, pattern and pattern.names())
    asked = Asked(verb, characters(''.join(given[1:]), options.bytes), window_of(options.window), options.match_all)
    note = unknown_letters(listing.used, asked.text.decode('latin-1') if options.bytes else asked.text)
    if note and not options.table:
        print(f'{COMMAND}: {note}', file=sys.stderr)
    line = case_line(code, asked)
    is_answered = options.attempt or options.run is not None
    if options.items:
        print('\n'.join(listing.lines))
    elif not is_answered:
        print(line)
    status = int(options.items and not listing.is_code)
    if is_answered:
        with limited(options.seconds, 'Python'):
            expected = pattern and answer(pattern, asked)
        status |= compare(options, line, listing.groups, expected)
    return status


def show_constants(options):
    """Writes the bytecode of patterns as constants; if a name can't be one, nothing but a line for each fault."""
    if not options.words or len(options.words) % 2:
        raise Fault('--rust takes pairs, a name and a pattern each; --help lists the options')
    named = [(name, pattern_of(source, options.flags, options.bytes))
             for name, source in zip(options.words[::2], options.words[1::2])]
    faults = list(constants.faults(named))
    if faults:
        raise Fault(*faults)
    print(constants.file_of(named, lambda it: without_block(it.words, options.no_block), FLAGS))


def main(given):
    require_known_numbers()
    end = given.index('--') if '--' in given else len(given)
    options = arguments().parse_intermixed_args(given[:end])
    options.words += given[end + 1:]
    if options.tree is None and options.cases is None and not options.rust:
        return one_case(options)
    if options.items or options.raw or options.words and not options.rust:
        raise Fault('--cases, --rust and --tree take no verb, and neither --items nor --raw')
    if options.rust:
        show_constants(options)
    elif options.tree is not None:
        print(trees.expression(without_block(pattern_of(options.tree, options.flags, options.bytes).words)))
    else:
        write_cases(*options.cases, options.no_block)
    return 0


if __name__ == '__main__':
    ended(main)
