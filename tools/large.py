"""Large lines that repeat nothing, so that no case file has them, for the programs `sre_cases` and `sre_probes`: with
ample memory each has its answer."""
import repository

LETTERS, TEXT = 100_000, "61" * 100_000


def groups(depth):
    """The letter a inside atomic groups, each of which ends just before the one around it."""
    skips = "".join(f"27,{3 * (depth - group) + 1}," for group in range(depth))
    return f"{skips}16,97,{'1,' * depth}1"


def cases():
    # a walk, a match for each character
    yield f"walk 16,97,1 b:{TEXT} all -", " ".join(f"{at}..{at + 1}" for at in range(LETTERS))
    # open groups
    yield f"match {groups(1000)} b:61 all -", "yes 0..1 last -1 marks none"
    yield f"match {groups(LETTERS)} s:{TEXT}62 all -", "yes 0..1 last -1 marks none"


def probes():
    # a code that is cut short behind 100,000 groups
    yield f"code check {groups(LETTERS)[:-2]}", f"Truncated {3 * LETTERS + 2}, number 2"


def are_answered(program, tell, rows):
    """Whether a program answers all rows."""
    lines, wanted = zip(*rows())
    answers = repository.answers(program, lines)
    for line, answer, other in zip(lines, answers, wanted):
        if answer != other:
            tell(f"answered otherwise: {line[:60]} ..: {answer[:60]}")
    return answers == list(wanted)
