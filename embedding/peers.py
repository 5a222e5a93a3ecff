#!/usr/bin/env python3
"""Counts the instructions of the library, by patterns that are kept and by codes, beside those of other engines.

    peers.py LIBRARY [--characters N,..] [--only NAME,..] [--groups] [--program PATH] [--regex PATH]

LIBRARY is a folder of `python/build.py library`. For each length and each line of WORK in tools/speed.py but `match`,
cachegrind counts the instructions a character that one more search for all spans takes: by a pattern that is kept
and by a code, each with the ratios to RE2, PCRE2, this Python's `re` and the kit's `regex`, with compiled patterns,
and to the program `sre_cases` of --program. An engine without headers (libre2-dev, libpcre2-dev) is left out, and so is
the cell of a pattern that an engine refuses. The kit's `regex` is in the program peers.rt, at the PATH of --regex. If
it is not there, it is proved and built: some minutes. (Built by tools/unproved.py, it takes 2.6 times the
instructions.) With --groups each match comes with its captures, but not from `regex` and the program. It runs under
CPython 3.11 to 3.13. The status is 1 if the numbers of matches differ.
"""
import argparse
import os
import re
import shutil
import sys
import tempfile

HERE = os.path.dirname(os.path.realpath(__file__))
sys.path.insert(0, f'{os.path.dirname(HERE)}/tools')

import speed
import words
from ending import Fault, ended
from repository import run, write

# How peers.cc is compiled for an engine, and how it is called: with which file for the pattern, and which options.
COMPILED = {'SRE': '-DBY_SRE -I{0} {0}/libsre_c.a', 'RE2': '-DBY_RE2 -lre2', 'PCRE2': '-DBY_PCRE2 -lpcre2-8'}
CALLED = {'kept': ('SRE', 'words', ''), 'code': ('SRE', 'words', 'c'), 'RE2': ('RE2', 'pattern', ''),
          'PCRE2': ('PCRE2', 'pattern', ''), 'JIT': ('PCRE2', 'pattern', 'j'), 'CPython': ('CPython', 'pattern', ''),
          'regex': ('regex', 'pattern', '')}
# What peers.cc does, by `re`.
BY_RE = """
import re, sys
pattern, text = (open(it, 'rb').read() if 'b' in sys.argv[4] else open(it, encoding='utf-8', newline='').read()
                 for it in sys.argv[1:3])
pattern = re.compile(pattern)
for _ in range(int(sys.argv[3])):
    for _ in pattern.finditer(text):
        pass
print(sum(1 for _ in pattern.finditer(text)))
"""
# After so many characters a pattern has DFAs.
BUILT = 40000


def prove_regex(path):
    """Proves and builds the program that calls the kit's `regex`."""
    with tempfile.TemporaryDirectory(prefix='peers-') as room:
        os.makedirs(f'{room}/crates/peers/src')
        shutil.copy(f'{HERE}/peers.rt', f'{room}/crates/peers/src/main.rt')
        write(f'{room}/crates.txt', 'peers: regex\n')
        made = run('rt', 'run', cwd=f'{room}/crates/peers')
        if made.returncode:
            raise Fault('peers.rt cannot be built', *made.stdout.splitlines())
        shutil.copy(f'{room}/crates/peers/out/peers', path)


class Lines:
    """The lines of the table, over texts of several lengths."""

    def __init__(self, options, room):
        self.options, self.room = options, room
        # how a program with each engine is called
        self.calls = {'CPython': [sys.executable, '-S', '-s', '-c', BY_RE]}
        if options.regex and not options.groups:
            self.calls['regex'] = [options.regex]
        for name, given in COMPILED.items():
            last = given.format(options.library).split()
            made = run('c++', '-std=c++17', '-O2', f'{HERE}/peers.cc', *last, '-o', f'{room}/{name}')
            if not made.returncode:
                self.calls[name] = [f'{room}/{name}']
            elif name == 'SRE':
                raise Fault(f'{last[-1]} cannot be linked', *made.stdout.splitlines())
            else:
                print(f'{name} is left out: {last[-1]} or its headers are not there')

    def counted(self, shared, characters):
        """The instructions of one more search of the whole text by each engine, and how many matches they find."""
        counts, found, times = {}, set(), BUILT // characters + 2
        for name, (engine, file, options) in CALLED.items():
            if engine not in self.calls:
                continue
            command = [*self.calls[engine], f'{self.room}/{file}', f'{self.room}/text']
            options += shared
            told = run(*command, '1', options)
            if told.stdout and not told.returncode:
                found.add(told.stdout)
                more, less = (speed.instructions(*command, str(it), options) for it in (times + 1, times))
                counts[name] = more - less
        return counts, found

    def of_program(self, *lines):
        """The instructions of the program for a line, less those for one that it takes as long to read."""
        found = []
        for it in lines:
            write(f'{self.room}/case', f'{it}\n')
            found.append(speed.instructions(self.options.program, f'{self.room}/case'))
        return found[0] - found[1]

    def rows(self, work):
        """Rows of a line for each length: by a pattern that is kept, and by a code."""
        for characters in self.options.characters:
            pattern, asked = speed.case_of(work, characters)
            letters = ''.join(letter for letter, flag in words.FLAGS.items() if flag & work.flags)
            text = asked.text.decode() if work.is_bytes else asked.text
            for name, it in (('pattern', f'(?{letters})' * bool(letters) + work.pattern), ('text', text),
                             ('words', words.case_words(pattern.words))):
                write(f'{self.room}/{name}', it)
            shared = 'b' * work.is_bytes
            if self.options.groups:
                shared += f'g{re.compile(work.pattern, work.flags).groups}'
            counts, found = self.counted(shared, characters)
            if self.options.program:
                # the library is given a text that nobody has checked to be UTF-8
                reading = words.Asked('match', text.encode())
                lines = words.case_line(pattern.words, asked), words.case_line([1], reading)
                counts['program'] = self.of_program(*lines)
            counts = {name: it / characters for name, it in counts.items()}
            is_right = found == {f'{len([*words.matches(pattern, asked)])}\n'}
            for ours in ('kept', 'code'):
                yield f'{characters:,} {ours}', counts.pop(ours), counts.copy(), is_right


def main(given):
    parser = argparse.ArgumentParser(description=__doc__, formatter_class=argparse.RawDescriptionHelpFormatter)
    add = parser.add_argument
    add('library')
    add('--characters', default='1000,10000,100000,1000000', metavar='N,..',
        type=lambda it: [int(number) for number in it.split(',')])
    add('--only', default='', metavar='NAME,..')
    add('--groups', action='store_true')
    add('--program', metavar='PATH')
    add('--regex', metavar='PATH')
    options = parser.parse_args(given)
    words.require_known_numbers()
    if options.regex and not os.path.isfile(options.regex):
        prove_regex(options.regex)
    os.environ['PYTHONHASHSEED'] = '0'  # so that each run of Python has the same instructions before it searches
    works = [it for it in speed.chosen(options.only) if it.verb != 'match']
    with tempfile.TemporaryDirectory(prefix='peers-') as room:
        return speed.measured(Lines(options, room).rows, works)


if __name__ == '__main__':
    ended(main)
