"""The tree of words that Python's compiler made, as a Rust expression of `Part` (crates/sre_emit)."""
import re
import textwrap

from grammar import CATEGORIES, POSITIONS, Reader, block_numbers, family_of

FOLDS = {'': 'Plain', '_IGNORE': 'Ascii', '_LOC_IGNORE': 'Locale', '_UNI_IGNORE': 'Unicode'}
KINDS = {'REPEAT_ONE': 'Greedy', 'MIN_REPEAT_ONE': 'Lazy', 'POSSESSIVE_REPEAT_ONE': 'Possessive'}


def fold_of(name):
    """The folding that an opcode's name ends in."""
    return 'Fold::' + FOLDS[re.search(r'(_LOC|_UNI)?_IGNORE$|$', name)[0]]


def listed(expressions):
    """A list of them, on the heap of `alloc`."""
    inner = ',\n'.join(expressions)
    return f'vec![in alloc;\n{textwrap.indent(inner, "    ")},\n]?' if inner else 'Vec::new(alloc)'


def fields(name, **values):
    shown = [f'{key}: {str(value).lower() if isinstance(value, bool) else value}' for key, value in values.items()]
    return f'{name} {{ {", ".join(shown)} }}'


def written(families, it):
    """An item, by the first of the families that its opcode's name is a match of, whole."""
    return family_of(families, it.name)(it)


def part(items):
    """The part that items are."""
    return f'Part {{ items: {listed([written(ITEMS, it) for it in items])} }}'


def category(it):
    return f'SreCatCode::{CATEGORIES[it.words[0]]}'


def blocks(it):
    """A set's blocks: the number of each, and the bits."""
    lists = {'numbers': block_numbers(it.words[1:65]), 'bits': it.words[65:]}
    return fields('SetItem::BigCharset', **{key: f'vec![in alloc; {str(each)[1:-1]}]?' for key, each in lists.items()})


def counts(it):
    return dict(zip(('min', 'max'), it.words[1:]))


def condition(it):
    yes, *no = map(part, it.parts)
    return fields('Item::Exists', group=it.words[0], yes=yes, no=f'Some({no[0]})' if no else 'None')


# How the members of a set, tests of one character and items are written.
MEMBERS = {
    r'NEGATE': lambda it: 'SetItem::Negate',
    r'CATEGORY': lambda it: f'SetItem::Category({category(it)})',
    r'CHARSET': lambda it: f'SetItem::Charset({it.words})',
    r'BIGCHARSET': blocks,
    r'LITERAL': lambda it: f'SetItem::Literal({it.words[0]})',
    r'RANGE': lambda it: f'SetItem::Range({it.words[0]}, {it.words[1]})',
    r'RANGE_UNI_IGNORE': lambda it: f'SetItem::RangeUniIgnore({it.words[0]}, {it.words[1]})',
}
TESTS = {
    r'ANY': lambda it: 'OneChar::Any',
    r'ANY_ALL': lambda it: 'OneChar::AnyAll',
    r'CATEGORY': lambda it: f'OneChar::Category({category(it)})',
    r'IN(_\w+)?': lambda it: fields(
        'OneChar::In', fold=fold_of(it.name), set=listed([written(MEMBERS, each) for each in it.parts[0]])),
    r'(NOT_)?LITERAL(_\w+)?': lambda it: fields(
        'OneChar::Literal', negated=it.name.startswith('NOT_'), fold=fold_of(it.name), value=it.words[0]),
}
ITEMS = {
    r'FAILURE': lambda it: 'Item::Fail',
    r'AT': lambda it: f'Item::At(SreAtCode::{POSITIONS[it.words[0]]})',
    r'MARK': lambda it: f'Item::Mark({it.words[0]})',
    r'BRANCH': lambda it: f'Item::Branch({listed(list(map(part, it.parts)))})',
    r'GROUPREF_EXISTS': condition,
    r'GROUPREF(_\w+)?': lambda it: fields('Item::Ref', fold=fold_of(it.name), group=it.words[0]),
    r'(MIN_|POSSESSIVE_)?REPEAT_ONE': lambda it: fields(
        'Item::Run', kind='RunKind::' + KINDS[it.name], **counts(it), test=written(TESTS, it.parts[0][0])),
    r'REPEAT': lambda it: fields(
        'Item::Loop', lazy=it.until == 'MIN_UNTIL', **counts(it), body=part(*it.parts)),
    r'POSSESSIVE_REPEAT': lambda it: fields('Item::PossLoop', **counts(it), body=part(*it.parts)),
    r'ATOMIC_GROUP': lambda it: f'Item::Atomic({part(*it.parts)})',
    r'ASSERT(_NOT)?': lambda it: fields(
        'Item::Look', positive=it.name == 'ASSERT', back=it.words[1], body=part(*it.parts)),
    r'.*': lambda it: f'Item::One({written(TESTS, it)})',
}


def expression(words):
    """The part that the words of a code mean, which have no information block."""
    return part(Reader(words).tree)
