"""What tools share: where the repository is, its crates, the kit that checks them, files, and how programs are run."""
import functools
import os
import re
import subprocess
import tempfile

ROOT = os.path.dirname(os.path.dirname(os.path.realpath(__file__)))
# The parts of a crate's folder that are code, specs and proofs.
PARTS = ("src", "specs", "proofs")
# How a command runs: nothing is given to it, and what it says on both outputs is one text.
HOW = {"stdin": subprocess.DEVNULL, "stdout": subprocess.PIPE, "stderr": subprocess.STDOUT, "errors": "replace"}


def read(path):
    with open(path, encoding="utf-8") as file:
        return file.read()


def write(path, text):
    with open(path, "w", encoding="utf-8", newline="\n") as file:
        file.write(text)


def files(folder, ends="", but=None):
    """The files below a folder whose names end so, in one order. Folders of the name `but` are left out."""
    found = []
    for at, folders, names in os.walk(folder):
        folders[:] = [it for it in folders if it != but]
        found += [f"{at}/{it}" for it in names if it.endswith(ends)]
    return sorted(found)


def texts_of(folder, parts=PARTS):
    """The texts of the files of a crate's parts, by their paths in its folder."""
    return {os.path.relpath(it, folder): read(it) for part in parts for it in files(f"{folder}/{part}")}


def run(*words, **how):
    """How a command ended, and what it said."""
    return subprocess.run(words, **{**HOW, **how})


def heard(hear, *words, **how):
    """Runs a command whose lines are heard as they come: its status, and the processor seconds that it took."""
    with subprocess.Popen(words, **HOW, **how) as command:
        for line in command.stdout:
            hear(line.rstrip("\n"))
        _, command.returncode, used = os.wait4(command.pid, 0)
    return command.returncode, used.ru_utime + used.ru_stime


def told(faults):
    """The status of a tool that prints what does not hold: 1 if there is something."""
    lines = list(faults)
    for line in lines:
        print(line)
    return int(bool(lines))


def tallied(passed, failed):
    """The status of a tool that counts: 0 if all has passed, and there is something. The counts are its last line."""
    print(f"{passed} passed, {failed} failed")
    return 0 if passed and not failed else 1


def answers(program, lines, *given):
    """What a program answers to a file of these lines, line by line; no line where it does not come to a good end."""
    with tempfile.TemporaryDirectory(prefix="lines-") as room:
        write(f"{room}/lines.txt", "".join(f"{it}\n" for it in lines))
        ran = subprocess.run([program, f"{room}/lines.txt", *given], capture_output=True, text=True)
    return [] if ran.returncode or ran.stderr else ran.stdout.splitlines()


@functools.lru_cache(maxsize=1)
def kit():
    """The toolchain's folder."""
    said = subprocess.run(["rt", "doc"], capture_output=True, text=True, check=True)
    return os.path.dirname(said.stdout.strip())


def of_kit(names):
    """These crates of the kit, and all below them: each with those that it lists."""
    found = dict.fromkeys(names)
    waiting = list(names)
    for it in waiting:
        found[it] = re.findall(r"(?m)^dep (\w+)$", read(f"{kit()}/rlibs/{it}.rlib/format"))
        waiting += [dep for dep in found[it] if dep not in waiting]
    return found


class Crate:
    """A crate of the repository, and those of the repository and of the kit that it lists."""

    def __init__(self, row, known):
        name, self.is_static, listed = row
        self.name, self.folder = name, f"{ROOT}/crates/{name}"
        self.own = [known[it] for it in listed if it in known]
        self.of_kit = ["std", *(it for it in listed if it not in known)]
        self.is_program = os.path.isfile(f"{self.folder}/src/main.rt")

    def below(self):
        found = {}
        for crate in self.own:
            found.update({it.name: it for it in [*crate.below(), crate]})
        return list(found.values())

    def words(self, rlibs):
        """What names the crate and its libraries to `rattle check`."""
        words = ["--crate-name", self.name, "src/main.rt" if self.is_program else "src/lib.rt"]
        for name in self.of_kit:
            words += ["--extern", f"{name}={kit()}/rlibs/{name}.rlib"]
        words += ["-L", f"dependency={kit()}/rlibs"]
        for crate in self.own:
            words += ["--extern", f"{crate.name}={rlibs(crate)}/{crate.name}.rlib"]
        for crate in self.below():
            words += ["-L", f"dependency={rlibs(crate)}"]
        words += ["--crate-type", "staticlib"] if self.is_static else []
        words += ["--antt-project", f"{kit()}/rattle/logic/antt-project.json"]
        return [*words, "--logic-built", f"{kit()}/logic_built", "--jobs", "1"]


def row_of(line):
    """What a line of crates.txt says: a crate's name, whether it is a static library, and what it lists. Another line
    has no name."""
    said, colon, listed = line.partition("#")[0].partition(":")
    name, *kind = said.split() if colon else [""]
    return name, kind == ["staticlib"], listed.split()


def rows(path="crates.txt"):
    """The lines of such a file of the repository that name a crate, lowest first."""
    return [it for it in map(row_of, read(f"{ROOT}/{path}").split("\n")) if it[0]]


def crates():
    """The repository's crates by name, lowest first."""
    known = {}
    for row in rows():
        known[row[0]] = Crate(row, known)
    return known
