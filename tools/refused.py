"""Whether a finder of `sre_cases` whose memory is refused leaves the plain answer. The gate asks for it (`cases.py`).

Each line is long enough to be asked of a finder. Each request for memory of the whole program is refused in turn, by
`refused.c` before the C library. What is refused to the program's reading and writing ends it with `no memory`, and
what is refused to the machine gives the answer `memory`: no more of them than the same line makes as a `match`, which
asks no finder. All others are the finder's, and leave the answer as it is. It needs `cc`.
"""
import os
import subprocess
import tempfile

from repository import ROOT, read, write

MEMORY = (1, "", "no memory\n"), (0, "memory\n", "")
LETTERS = "6162632031323320" * 5000
# [a-z]+!, (?:cat|dog|[0-9]+)! and (?:cat|dög|[0-9]+)!
DIGITS = "24,10,1,4294967295,13,5,22,48,57,0,1"
RUN = "24,10,1,4294967295,13,5,22,97,122,0,1,16,33,1"
CHOICE = f"7,9,16,99,16,97,16,116,15,25,9,16,100,16,{{}},16,103,15,16,14,{DIGITS},15,2,0,16,33,1"


def lines():
    """The verbs of lines, and what stands behind them."""
    # the ! that each match contains does not come
    yield "search", f"{RUN} b:{LETTERS} all -"
    # it comes, and no match does
    yield "search", f"{CHOICE.format(111)} s:{LETTERS}21 all -"
    # by a finder, and by a finder of spans
    for verb in ("search", "walk"):
        yield verb, f"{RUN} b:{LETTERS}21 all -"
        yield verb, f"{CHOICE.format(246)} s:{LETTERS}c3a921 all -"


class Refusing:
    """Runs of a program on a line, with one request for memory refused."""

    def __init__(self, program, room):
        self.program, self.case, self.told, self.library = program, *(f"{room}/{it}" for it in ("case", "told", "so"))
        source = f"{ROOT}/tools/refused.c"
        subprocess.run(["cc", "-shared", "-fPIC", "-O1", "-Wall", "-Werror", source, "-o", self.library], check=True)

    def ran(self, number):
        """What the program comes to where the request of a number is refused; of number 0 none is."""
        given = {**os.environ, "LD_PRELOAD": self.library, "REQUESTS": self.told, "REFUSED": str(number)}
        ran = subprocess.run([self.program, self.case], env=given, capture_output=True, text=True)
        return ran.returncode, ran.stdout, ran.stderr

    def asked(self, line):
        """What a line comes to with ample memory, and how many requests it makes."""
        write(self.case, f"{line}\n")
        came_to = self.ran(0)
        # none is told where the program does not ask the C library
        return came_to, int(read(self.told)) if os.path.isfile(self.told) else 0

    def is_plain(self, verb, asked, tell):
        """Whether each request of the finder's leaves the plain answer, and each other one is told."""
        _, alone = self.asked(f"match {asked}")
        plain, requests = self.asked(f"{verb} {asked}")
        ends = [self.ran(number) for number in range(1, requests + 1)]
        left, refused = ends.count(plain), sum(map(ends.count, MEMORY))
        is_well = plain[0] == 0 and plain not in MEMORY and left + refused == requests and refused <= alone < requests
        if not is_well:
            tell(f"{verb} {asked[:40]}..: {requests} requests, {alone} of them with no finder; where one was refused "
                 f"{left} left the answer, {refused} were told, {requests - left - refused} came to another answer")
        return is_well


def are_plain(program, tell):
    """Whether all lines are answered as they must be."""
    with tempfile.TemporaryDirectory(prefix="refused-") as room:
        refusing = Refusing(program, room)
        return all([refusing.is_plain(verb, asked, tell) for verb, asked in lines()])
