"""Words item by item, with their places, why words are refused (docs/BYTECODE.md), and of what they ask the table."""
import re
import sys

from grammar import CATEGORIES, OPCODES, POSITIONS, UNLIMITED, Reader, block_numbers, family_of


def character(value):
    """A character's number and how it looks."""
    return f'{value} {ascii(chr(value)) if value <= sys.maxunicode else "no character"}'


def bits(words, first=0):
    """The numbers of the bits that are set, counted from `first` on."""
    return [first + 32 * place + bit for place, word in enumerate(words) for bit in range(32) if word >> bit & 1]


def ranges(members, shown=12):
    """The first few ranges of the characters with these numbers, which rise."""
    members = dict.fromkeys(members)
    lows = [value for value in members if value - 1 not in members]
    highs = [value for value in members if value + 1 not in members]
    texts = [ascii(chr(low)) + f'-{ascii(chr(high))}' * (low < high) for low, high in zip(lows, highs)]
    return ' '.join(texts[:shown]) + ' ...' * (len(texts) > shown)


class Listing:
    """The items of words, in `lines`; of refused words those up to the fault, and then the cause.

    `is_code` and `used` are those of the reader, and `groups` has names of groups by their numbers.
    """

    def __init__(self, words, groups=None):
        reader = Reader(words)
        self.words, self.groups = words, groups or {}
        self.is_code, self.used = reader.is_code, reader.used
        self.lines = [self.line(it.place, it.depth, self.said(it)) for it in reader.read]
        if reader.fault:
            self.lines += self.refused(reader, *reader.fault)

    def line(self, place, depth, said):
        width = len(str(len(self.words) - 1))
        return f'{place:>{width}}  {"  " * depth}{said}'

    def refused(self, reader, place, cause):
        """The line of the opcode that was read last, where it has none yet, and that of the cause."""
        if reader.begun and reader.begun[0] not in [it.place for it in reader.read[-1:]]:
            yield self.line(*reader.begun, OPCODES[self.words[reader.begun[0]]])
        what = f'word {self.words[place]}' if place < len(self.words) else 'the end'
        yield self.line(place, 0, f'{what} is refused: {cause}')

    def said(self, item):
        """What the line of an item says: its name and operands, or what stands in place of a name."""
        if item.name in IN_PLACE:
            return IN_PLACE[item.name](item)
        made = family_of(BEHIND, item.name)
        return ' '.join(filter(None, [item.name, made and made(self, item.place, *item.words)]))

    def group(self, number):
        name = self.groups.get(number + 1)
        return f'group {number + 1}' + (f' ({name})' if name else '')


def leading(place, skip):
    """What is told of a skip or a JUMP."""
    return f'{skip}, to {place + 1 + skip}'


def members(words):
    """The characters of a set's blocks, whose numbers stand before them."""
    numbers, blocks = block_numbers(words[:64]), words[64:]
    return [it for high, number in enumerate(numbers) for it in bits(blocks[8 * number:][:8], 256 * high)]


# By patterns for `family_of`: what a line says behind a name, from the listing, the place and the operands.
BEHIND = {
    r'AT': lambda own, at, word: ' '.join([str(word), *POSITIONS[word:word + 1]]),
    r'CATEGORY': lambda own, at, word: ' '.join([str(word), *CATEGORIES[word:word + 1]]),
    r'MARK': lambda own, at, word: f'{word}, the {"end" if word % 2 else "start"} of {own.group(word // 2)}',
    r'JUMP': lambda own, at, skip: leading(at, skip),
    r'GROUPREF(_\w*IGNORE)?': lambda own, at, word: f'{word}, {own.group(word)}',
    r'GROUPREF_EXISTS': lambda own, at, word, skip: f'{word}, {own.group(word)}, skip {leading(at, skip)}',
    r'(NOT_)?LITERAL(_\w+)?|RANGE(_UNI_IGNORE)?': lambda own, at, *words: ' to '.join(map(character, words)),
    r'CHARSET': lambda own, at, *words: ranges(bits(words)),
    r'BIGCHARSET': lambda own, at, count, *words: f'{count} blocks: {ranges(members(words))}',
    r'IN(_\w*IGNORE)?|ATOMIC_GROUP': lambda own, at, skip: f'skip {leading(at, skip)}',
    r'ASSERT(_NOT)?': lambda own, at, skip, *back: f'skip {leading(at, skip)}' + ''.join(f', {it} back' for it in back),
    r'(MIN_|POSSESSIVE_)?REPEAT(_ONE)?': lambda own, at, skip, least, greatest:
        f'skip {leading(at, skip)}, {least} to {"no limit" if greatest == UNLIMITED else greatest}',
    r'INFO': lambda own, at, skip, *words: 'skip {}, flags {}, width {} to {}'.format(leading(at, skip), *words),
    r'claims': lambda own, at, *words: ' '.join(map(str, words)),
}
IN_PLACE = {
    'alternative': lambda item: f'alternative of {item.words[0]} words, to {item.behind}',
    'no alternative': lambda item: '0, the end of the alternatives',
    'otherwise': lambda item: f'otherwise, to {item.behind}',
}

# The opcodes, positions and categories that ask the table about letters, digits or cases.
ASKING = re.compile('UNI_(NOT_)?(DIGIT|WORD)|UNI_(NON_)?BOUNDARY|[A-Z_]+_UNI_IGNORE')


def unknown_letters(used, text):
    """A line on a text's letters past ASCII, where words that use these names ask the table; else None."""
    names = ', '.join(sorted(filter(ASKING.fullmatch, used)))
    letters = [it for it in dict.fromkeys(text) if it > '\x7f' and (it.isalnum() or it.lower() != it)]
    shown = ' '.join(map(repr, letters[:8])) + ' ...' * (len(letters) > 8)
    return ("the program's table knows ASCII alone, so its answer may differ from Python's (--table gives another): "
            f'{names} asked of {shown}') if names and letters else None
