"""The grammar of words: whether they are a code, what they say item by item, and else where and why they are none.

This is the one reader of words among the tools: `listing.py` writes lines of what it reads, `trees.py` an expression,
and `hostile.py` holds the program to its judgement. It is written from docs/BYTECODE.md and takes nothing of the check
and its proofs. It looks at the same words as `Code::check` and in the same order, so both name the same cause and
place.
"""
import re
import sys

# The numbers of the project, in order from 0 on (crates/sre_chars/src/constants.rt).
OPCODES = """
    FAILURE SUCCESS ANY ANY_ALL ASSERT ASSERT_NOT AT BRANCH CATEGORY CHARSET BIGCHARSET GROUPREF GROUPREF_EXISTS IN
    INFO JUMP LITERAL MARK MAX_UNTIL MIN_UNTIL NOT_LITERAL NEGATE RANGE REPEAT REPEAT_ONE SUBPATTERN MIN_REPEAT_ONE
    ATOMIC_GROUP POSSESSIVE_REPEAT POSSESSIVE_REPEAT_ONE GROUPREF_IGNORE IN_IGNORE LITERAL_IGNORE NOT_LITERAL_IGNORE
    GROUPREF_LOC_IGNORE IN_LOC_IGNORE LITERAL_LOC_IGNORE NOT_LITERAL_LOC_IGNORE GROUPREF_UNI_IGNORE IN_UNI_IGNORE
    LITERAL_UNI_IGNORE NOT_LITERAL_UNI_IGNORE RANGE_UNI_IGNORE
""".split()
POSITIONS = """
    BEGINNING BEGINNING_LINE BEGINNING_STRING BOUNDARY NON_BOUNDARY END END_LINE END_STRING LOC_BOUNDARY
    LOC_NON_BOUNDARY UNI_BOUNDARY UNI_NON_BOUNDARY
""".split()
CATEGORIES = """
    DIGIT NOT_DIGIT SPACE NOT_SPACE WORD NOT_WORD LINEBREAK NOT_LINEBREAK LOC_WORD LOC_NOT_WORD UNI_DIGIT
    UNI_NOT_DIGIT UNI_SPACE UNI_NOT_SPACE UNI_WORD UNI_NOT_WORD UNI_LINEBREAK UNI_NOT_LINEBREAK
""".split()
NUMBER = {name: number for number, name in enumerate(OPCODES)}
UNLIMITED = 4294967295

# How many words stand behind an opcode that is an item by itself, by a pattern that its name is a match of.
OPERANDS = {
    r'FAILURE|ANY|ANY_ALL|NEGATE': 0,
    r'AT|CATEGORY|MARK|JUMP|GROUPREF(_\w*IGNORE)?|(NOT_)?LITERAL(_\w+)?': 1,
    r'RANGE(_UNI_IGNORE)?': 2,
    r'CHARSET': 8,
}


def family_of(families, name):
    """What the first of the families has that a name is a match of, whole; none if there is none."""
    return next((it for family, it in families.items() if re.fullmatch(family, name)), None)


def case_words(words):
    """Words as a case has them."""
    return ','.join(map(str, words)) or '-'


class Refused(Exception):
    """Words are no code: the place at which that is seen, and the cause's name."""


def demand(holds, place, cause):
    if not holds:
        raise Refused(place, cause)


def block_numbers(words):
    """The numbers of a set's blocks, four in a word."""
    return [word >> shift & 255 for word in words for shift in (0, 8, 16, 24)]


class Item:
    """What stands at a place: an opcode's name and its operands, or what stands there in place of an opcode.

    `behind` is the place behind it, and `parts` has the items of each part: those of a body, of a set without its
    FAILURE, of each alternative, and of a condition's one or two parts. A loop's `until` is the name of its end.
    """

    def __init__(self, name, place, depth, words):
        self.name, self.place, self.depth, self.words = name, place, depth, words
        self.parts, self.behind, self.until = [], place + 1 + len(words), None


class Reader:
    """What words say. `tree` has the items of a code, without its block and its last SUCCESS.

    `read` has all that is read, in the order of reading, also of refused words up to the `fault`, which is a place and
    a cause's name. `used` has the names of the opcodes, positions and categories.

    Each method for a family of opcodes reads the item at `place`, and gives it.
    """

    def __init__(self, words):
        self.words, self.tree, self.read, self.used, self.fault = words, [], [], set(), None
        # the place and depth of the opcode that was read last
        self.begun = None
        limit = sys.getrecursionlimit()
        # an item inside another one is at least two words further on, and four calls deeper
        sys.setrecursionlimit(limit + 2 * len(words))
        try:
            self.code()
        except Refused as refused:
            self.fault = refused.args
        finally:
            sys.setrecursionlimit(limit)
        self.is_code = self.fault is None

    def note(self, name, place, depth, count=0):
        """An item of so many words behind its opcode."""
        self.read.append(Item(name, place, depth, self.words[place + 1:place + 1 + count]))
        return self.read[-1]

    def word(self, place):
        demand(place < len(self.words), len(self.words), 'Truncated')
        return self.words[place]

    def skip(self, place):
        """Where the skip at a place leads."""
        return place + self.word(place)

    def opcode(self, place, depth):
        word = self.word(place)
        demand(word < len(OPCODES), place, 'UnknownOpcode')
        self.begun = place, depth
        self.used.add(OPCODES[word])
        return OPCODES[word]

    def code(self):
        """A block, if there is one, items, and SUCCESS as the last word."""
        place = self.block() if self.words[:1] == [NUMBER['INFO']] else 0
        while self.opcode(place, 0) != 'SUCCESS':
            self.tree.append(self.item(place, 0))
            place = self.tree[-1].behind
        self.note('SUCCESS', place, 0)
        demand(place + 1 == len(self.words), place + 1, 'TrailingWords')

    def items(self, place, end, depth):
        """The items from `place` on, until one ends at `end`."""
        found = []
        while place != end:
            found.append(self.item(place, depth))
            place = found[-1].behind
        return found

    def item(self, place, depth):
        return self.one_of(self.ITEMS, place, depth, 'BadItem')

    def one_of(self, families, place, depth, cause):
        """The item at a place, by the first of the families that its opcode's name is a match of, whole."""
        name = self.opcode(place, depth)
        method = family_of(families, name)
        demand(method, place, cause)
        return method(self, name, place, depth)

    def end(self, place, names, depth):
        """The opcode that ends a part, which is one of these."""
        name = self.opcode(place, depth)
        demand(name in names, place, 'BadItem')
        return self.note(name, place, depth)

    def alone(self, name, place, depth):
        count = family_of(OPERANDS, name)
        self.word(place + count)
        item = self.note(name, place, depth, count)
        if name in ('AT', 'CATEGORY'):
            names = POSITIONS if name == 'AT' else CATEGORIES
            demand(item.words[0] < len(names), place + 1, 'UnknownAt' if name == 'AT' else 'UnknownCategory')
            self.used.add(names[item.words[0]])
        return item

    def bigcharset(self, name, place, depth):
        self.word(place + 65)
        count = self.words[place + 1]
        demand(max(block_numbers(self.words[place + 2:place + 66])) < count, place, 'BadSet')
        self.word(place + 65 + 8 * count)
        return self.note(name, place, depth, 65 + 8 * count)

    def region(self, name, place, depth):
        """A set, an atomic group, or a look, which has a word more. The skip leads behind it."""
        count = 2 if name.startswith('ASSERT') else 1
        behind, inside = self.skip(place + 1), place + 1 + count
        item = self.note(name, place, depth, count)
        demand(behind > inside, place + 1, 'BadSkip')
        item.behind = behind
        if name.startswith('IN'):
            item.parts = [self.members(inside, behind - 1, depth + 1)]
        else:
            item.parts = [self.items(inside, behind - 1, depth + 1)]
            self.end(behind - 1, ['SUCCESS'], depth + 1)
        return item

    def members(self, place, end, depth):
        """The items of a set, behind which a FAILURE ends it."""
        found = []
        demand(self.opcode(end, depth) == 'FAILURE', end, 'BadSet')
        while place < end:
            found.append(self.one_of(self.MEMBERS, place, depth, 'BadSet'))
            place = found[-1].behind
        demand(place == end, end, 'BadSet')
        self.end(end, ['FAILURE'], depth)
        return found

    def repeat(self, name, place, depth):
        """A run of a test, whose skip leads behind it, or a loop, whose skip leads to its end."""
        self.word(place + 3)
        item = self.note(name, place, depth, 3)
        skip, least, greatest = item.words
        demand(least <= greatest, place + 2, 'BadCounts')
        item.behind = place + 1 + skip
        if name.endswith('_ONE'):
            test = self.one_of(self.TESTS, place + 4, depth + 1, 'BadItem')
            item.parts = [[test]]
            demand(item.behind == self.end(test.behind, ['SUCCESS'], depth + 1).behind, place + 1, 'BadSkip')
        else:
            item.parts = [self.items(place + 4, item.behind, depth + 1)]
            end = self.end(item.behind, ['MAX_UNTIL', 'MIN_UNTIL'] if name == 'REPEAT' else ['SUCCESS'], depth)
            item.until, item.behind = end.name, end.behind
        return item

    def branch(self, name, place, depth):
        item, place, leads = self.note(name, place, depth), place + 1, None
        while leads is None or self.word(place):
            # an alternative, whose JUMP leads to where those of the ones before do
            following = self.skip(place)
            demand(following >= place + 3, place, 'BadItem')
            own = self.skip(following - 1)
            demand(leads in (None, own), place, 'BadSkip')
            part, leads = self.note('alternative', place, depth + 1), own
            part.words, part.behind = [self.words[place]], following
            item.parts.append(self.items(place + 1, following - 2, depth + 2))
            demand(self.opcode(following - 2, depth + 2) == 'JUMP', following - 2, 'BadItem')
            self.alone('JUMP', following - 2, depth + 2)
            place = following
        self.note('no alternative', place, depth + 1)
        demand(leads == place + 1, place, 'BadSkip')
        item.behind = leads
        return item

    def condition(self, name, place, depth):
        behind = self.skip(place + 2) - 1
        item = self.note(name, place, depth, 2)
        demand(behind >= place + 3, place + 2, 'BadSkip')
        item.parts, item.behind, place = [[]], behind, place + 3
        while place != behind:
            if self.opcode(place, depth + 1) == 'JUMP' and place + 2 == behind:
                # the second part, behind the JUMP at the end of the first one
                item.behind = self.skip(place + 1)
                self.alone('JUMP', place, depth + 1)
                demand(item.behind >= behind, place + 1, 'BadSkip')
                self.note('otherwise', behind, depth).behind = item.behind
                item.parts.append(self.items(behind, item.behind, depth + 1))
                break
            item.parts[0].append(self.item(place, depth + 1))
            place = item.parts[0][-1].behind
        return item

    def block(self):
        """Reads the information block, and gives the place behind it. The grammar asks its skip alone, so what it
        claims may be any words."""
        self.opcode(0, 0)
        behind = 1 + self.word(1)
        demand(5 <= behind < len(self.words), 1, 'BadInfo')
        self.note('INFO', 0, 0, 4)
        if behind > 5:
            self.note('claims', 5, 1).words = self.words[5:behind]
        return behind

    # How an item is read: by the first pattern that its opcode's name is a match of, whole.
    TESTS = {
        r'ANY|ANY_ALL|CATEGORY|(NOT_)?LITERAL(_\w+)?': alone,
        r'IN(_\w*IGNORE)?': region,
    }
    ITEMS = {
        **TESTS,
        r'INFO': lambda self, name, place, depth: demand(False, place, 'BadInfo'),
        r'FAILURE|AT|MARK|GROUPREF(_\w*IGNORE)?': alone,
        r'BRANCH': branch,
        r'GROUPREF_EXISTS': condition,
        r'ATOMIC_GROUP|ASSERT(_NOT)?': region,
        r'(MIN_|POSSESSIVE_)?REPEAT_ONE|(POSSESSIVE_)?REPEAT': repeat,
    }
    MEMBERS = {
        r'NEGATE|LITERAL|CATEGORY|RANGE(_UNI_IGNORE)?|CHARSET': alone,
        r'BIGCHARSET': bigcharset,
    }
