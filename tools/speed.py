#!/usr/bin/env python3
"""Times the program `sre_cases` beside CPython's `_sre`, on the same words and the same texts, or counts instructions.

    speed.py [--runs N] [--repeat N] [--scale F]
    speed.py --instructions [--before PATH] [--characters N]

Both take --program PATH and --only NAME,... For each line of WORK, without and with the INFO block: nanoseconds of
processor time a character, the best of N runs, of the program and of CPython, and the ratio (docs/SPEED.md). The status
is 1 if an answer is not CPython's. Instructions are counted by cachegrind, likewise. It runs under CPython 3.11 to
3.13. embedding/peers.py has the same lines for the library and other engines.
"""
import argparse
import collections
import io
import random
import re
import resource
import statistics
import subprocess
import tempfile
import time
import typing

import words
from ending import ended
from repository import write

NOUNS = """
    amber anchor basin beacon cinder cobalt comet delta ember falcon fjord garnet glacier harvest hazel indigo island
    jasper juniper kelp lagoon lantern marble meadow nectar oasis orchid pebble prairie quarry raven river saffron
    sierra summit thicket tundra valley willow zephyr
""".split()
SMALL = 'a an and as at by for from in is it of on or so the this to was with'.split()


def prose(draw):
    """A word of sentences in lines."""
    text = draw.choice(NOUNS if draw.random() < .6 else SMALL)
    text = text.capitalize() if draw.random() < .1 else text
    return text + draw.choice([' '] * 16 + [', ', '. ', ';\n', '.\n'])


def name(draw):
    """A name as in a program."""
    parts = [draw.choice(NOUNS)] + [draw.choice(NOUNS)] * (draw.random() < .4)
    return '_'.join(parts) + str(draw.randrange(100)) * (draw.random() < .2)


def program(draw):
    """A line of a program."""
    first, second, third = name(draw), name(draw), name(draw)
    return draw.choice([
        f'{first} = {second}({third}, {draw.randrange(10000)})\n',
        f'if {first}.{second} == "{third}":\n',
        f'return [{first} for {second} in {third}]\n',
        f'# {first} {second} {draw.choice(SMALL)} {third}\n',
    ])


def log(draw):
    """A line of a server's log."""
    address = '.'.join(str(draw.randrange(256)) for _ in range(4))
    asked = f'{draw.choice(["GET", "PUT", "POST"])} /{name(draw)}/{name(draw)}?n={draw.randrange(10000)}'
    clock = f'{draw.randrange(24):02}:{draw.randrange(60):02}'
    return f'{address} - - [{clock}] "{asked}" {draw.randrange(200, 600)} {draw.randrange(100000)}\n'


def table(draw):
    """A field between commas, perhaps in quotes."""
    value = draw.choice([str(draw.randrange(10 ** 6)), f'"{name(draw)}, ""{name(draw)}"""', name(draw), ''])
    return value + draw.choice(',,,,\n')


def markup(draw):
    """An element on a line."""
    tag = draw.choice(['b', 'em', 'span', 'h3'])
    inside = ' '.join(draw.choice(NOUNS) for _ in range(draw.randrange(1, 8)))
    return f'<{tag} id="{name(draw)}">{inside}</{tag}>\n'


def greek(draw):
    """A word of Greek letters."""
    letters = [chr(code) for code in range(0x3b1, 0x3ca)]
    return ''.join(draw.choices(letters, k=draw.randrange(2, 9))) + draw.choice('    ,\n')


TOKENS = r'(\#[^\n]*)|("(?:[^"\\\n]|\\.)*")|(\d+)|([A-Za-z_]\w*)|(==|[-+*/=<>()\[\]:,.?&;])|([ \t]+)|(\n)'


class Work(typing.NamedTuple):
    """A line of the table: what is asked of a text of so many characters, which `text` gives piece by piece."""
    name: str
    verb: str
    pattern: str
    text: object
    size: int
    is_bytes: bool = True
    flags: int = 0


WORK = [
    Work('literal', 'search', 'falcon!', prose, 2000000),
    Work('run', 'search', '[a-z]+ight!', prose, 600000),
    Work('run of str', 'search', '[a-z]+ight!', prose, 600000, False),
    Work('any', 'search', '.*!', prose, 150000),
    Work('alternatives', 'search', rf'\b(?:{"|".join(NOUNS)})!', prose, 500000, False),
    Work('sets', 'search', r'[\w.-]+@[\w-]+\.[a-z]+', prose, 600000, False),
    Work('numbers', 'search', r'([0-9]{3})-([0-9]{4})!', log, 600000),
    Work('routes', 'search', r'/(?:users/[0-9]+|posts/[a-z]+|static/[a-z./]*|health)!', log, 600000),
    Work('names', 'search', r'[A-Za-z_]\w*\.[A-Za-z_]\w*!', program, 600000, False),
    Work('ignoring case', 'search', r'\b(falcon|Garnet|hazel)!', prose, 600000, False, re.I),
    Work('greek', 'search', '[\u03b1-\u03c9]+!', greek, 400000, False),
    Work('groups', 'search', r'(\w+)=(\w+)!', program, 600000),
    Work('lazy run', 'search', r'".*?"!', log, 600000),
    Work('loop', 'search', r'(?:[a-z]+_)*[a-z]+!', program, 400000),
    Work('strings', 'search', r'"(?:[^"\\]|\\.)*"!', program, 600000, False),
    Work('looks', 'search', r'(?<=\()\w+(?=, \d)!', program, 600000),
    Work('reference', 'search', r'<(\w+)[^>]*>[^<]*</\1>!', markup, 600000, False),
    Work('possessive', 'search', r'[a-z]++_[a-z]++!', program, 600000),
    Work('nested loops', 'match', '(?:(?:a|b)+c?)*d', lambda _: 'ab', 18),
    Work('tokens', 'walk', TOKENS, program, 400000, False),
    Work('fields', 'walk', r'("(?:[^"]|"")*"|[^,\n]*)(,|\n)', table, 400000),
    Work('requests', 'walk', r'^(\S+) - - \[([^\]]+)\] "(\w+) (\S+)" (\d+) (\d+)', log, 600000, True, re.M),
    Work('elements', 'walk', r'<(\w+)[^>]*>(.*?)</\1>', markup, 400000, False),
    Work('words', 'walk', r'\w+', prose, 400000, False),
]


def python_time(pattern, asked):
    """The time of CPython on these words, in seconds."""
    ask, start = getattr(pattern, 'finditer' if asked.verb == 'walk' else asked.verb), time.process_time()
    collections.deque(ask(asked.text) if asked.verb == 'walk' else [ask(asked.text)], 0)
    return time.process_time() - start


def program_time(program, line, repeat, room):
    """The time of the program for a case, in seconds, and its answer."""
    write(f'{room}/case', f'{line}\n' * repeat)
    # of processor time, in user mode and in the kernel
    before = sum(resource.getrusage(resource.RUSAGE_CHILDREN)[:2])
    answers = subprocess.run([program, f'{room}/case'], capture_output=True, text=True, check=True).stdout
    took = sum(resource.getrusage(resource.RUSAGE_CHILDREN)[:2]) - before
    return took / repeat, answers.split('\n', 1)[0]


def case_of(work, size):
    """The pattern of a line, and what is asked of it over so many characters."""
    draw, text = random.Random(work.name), io.StringIO()
    while text.tell() < size:
        text.write(work.text(draw))
    text = text.getvalue()[:size]
    pattern = words.compiled(work.pattern.encode() if work.is_bytes else work.pattern, int(work.flags))
    return pattern, words.Asked(work.verb, text.encode() if work.is_bytes else text)


def lines_of(code, asked):
    """The line of a case, and that of the empty pattern at the text's start, which takes what reading the text does."""
    return words.case_line(code, asked), words.case_line([1], asked._replace(verb='match'))


def forms(pattern):
    """The words of a pattern without and with the block."""
    return ('without block', words.without_block(pattern.words)), ('with block', pattern.words)


def times(work, options, room):
    """The program's time in nanoseconds a character, that of CPython, and whether the answers agree, by the form."""
    pattern, asked = case_of(work, work.size if work.size < 100 else int(work.size * options.scale))
    expected, unit = words.answer(pattern, asked), 1e9 / len(asked.text)
    for form, code in forms(pattern):
        python, (line, empty) = words.of_words(pattern, code), lines_of(code, asked)
        # One run of each in turn, so that a slow moment of the machine is one for all.
        theirs, ours, reading = map(min, zip(*(
            (python_time(python, asked), program_time(options.program, line, options.repeat, room),
             program_time(options.program, empty, options.repeat, room)) for _ in range(options.runs))))
        yield form, max(ours[0] - reading[0], 1e-9) * unit, {'CPython': theirs * unit}, ours[1] == expected


def instructions(*command):
    """How many instructions a command executes."""
    told = subprocess.run(['valgrind', '--tool=cachegrind', '--cache-sim=no', '--cachegrind-out-file=/dev/null',
                           *command], stdout=subprocess.DEVNULL, stderr=subprocess.PIPE, text=True, check=True).stderr
    return int(re.search(r'I +refs: +([\d,]+)', told)[1].replace(',', ''))


def counts(work, options, room):
    """The program's instructions a character, those of an earlier build, and True, by the form of the words."""
    pattern, asked = case_of(work, work.size if work.verb == 'match' else options.characters)

    def counted(program, *lines):
        """Those of a program for a line, less those for one that it takes as long to read."""
        found = []
        for it in lines:
            write(f'{room}/file', f'{it}\n')
            found.append(instructions(program, f'{room}/file'))
        return (found[0] - found[1]) / len(asked.text)

    for form, code in forms(pattern):
        lines = lines_of(code, asked)
        before = {'before': counted(options.before, *lines)} if options.before else {}
        yield form, counted(options.program, *lines), before, True


def arguments():
    parser = argparse.ArgumentParser(description=__doc__, formatter_class=argparse.RawDescriptionHelpFormatter)
    add = parser.add_argument
    add('--program', default='crates/sre_cases/out/sre_cases', metavar='PATH')
    add('--only', default='', metavar='NAME,..', help='these lines alone')
    add('--runs', type=int, default=5, metavar='N', help='runs of which the best counts')
    add('--repeat', type=int, default=5, metavar='N', help='how often a run of the program repeats a case')
    add('--scale', type=float, default=1, metavar='F', help='texts of so many times the characters')
    add('--instructions', action='store_true', help='counts instructions')
    add('--before', metavar='PATH', help='an earlier build of the program')
    add('--characters', type=int, default=100000, metavar='N', help='the length of each text')
    return parser


def measured(rows_of, works):
    """Writes the rows of each line, gathers the ratios by what they are to and the form, and gives the status."""
    ratios, wrong = collections.defaultdict(dict), 0
    for work in works:
        for form, ours, others, is_right in rows_of(work):
            shown = ''.join(f'{what:>11}{it:>11.2f}{ours / it:>8.3f}' for what, it in others.items())
            print(f'{work.name:<16}{form:<14}{ours:>11.2f}{shown}' + '  WRONG' * (not is_right), flush=True)
            wrong += not is_right
            for what, it in others.items():
                ratios[f'{form}, to {what}'][work.name] = ours / it
    for what, found in ratios.items():
        greatest = max(found, key=found.get)
        print(f'{what}: geometric mean {statistics.geometric_mean(found.values()):.3f}, greatest '
              f'{found[greatest]:.3f} ({greatest}), {sum(it < 1 for it in found.values())} of {len(found)} ahead')
    return int(wrong > 0)


def chosen(only):
    """The lines of these names, or all."""
    return [work for work in WORK if not only or work.name in only.split(',')]


def main(given):
    words.require_known_numbers()
    options = arguments().parse_args(given)
    for program in filter(None, (options.program, options.before)):
        words.require_program(program)
    how = counts if options.instructions else times
    with tempfile.TemporaryDirectory() as room:
        return measured(lambda work: how(work, options, room), chosen(options.only))


if __name__ == '__main__':
    ended(main)
