#!/usr/bin/env python3
"""Mutants of public calls: the prover has to refuse each one, at the goal that it names (docs/GATE.md, "Mutants").

    mutants.py [CRATE..]     tries the mutants of these crates, or of all, over the crates below as they were built
    mutants.py --calls       prints a row for each public call: its mutants, and the clauses that refuse them

A file crates/CRATE/wrong/CALL.edit has a block for each mutant, in lines 'WORD: TEXT': title, fn, goal, file, old and
new. Further pairs of old and new may follow. A function of a cycle of calls has no mutants. If a check does not reach
its end, its mutants are tried one by one. What a run on this machine judged of the very same files is taken over
(`kept.py`). The status is 0 if each mutant is refused as it must be, and each unchanged function is not.
"""
import concurrent.futures
import copy
import glob
import os
import re
import tempfile
import threading

import kept
from ending import ended
from functions import emptied, functions
from repository import PARTS, crates, heard, kit, read, texts_of, write

# An answer that names what a mutant took away says nothing of the contract.
TAKEN_AWAY = re.compile(r"has no field|is not in scope|has no `|was not admitted|stands by its signature")

# What a reader takes for promised begins so.
PROMISE = re.compile(r"\b(?:ensures|requires|ghost)\b[^{;]*[{;]")

# A check offers files for the proof of a refused function, in a second pass; but not beside an answer that is no term.
NO_OFFERS = "\nno_offers : no_such_type\nno_offers = ?\n"

# The proof of a function that only its contract is read of.
HOLE = """use Rattle.{crate}.proofs.{path}.Statement as stated

pub {name}_spec : {{M : Type 1}} → stated.statement M
{name}_spec = ?
"""


def promises(text):
    """The contracts of a source, what else of it is ghost, and its attributes, which name lemmas for the search."""
    text = re.sub(r"//.*", "", text)
    found = re.findall(r"#!?\[.*", text)
    for begun in PROMISE.finditer(text):
        at, depth = begun.end(), text[begun.end() - 1] == "{"
        while depth and at < len(text):
            depth += {"{": 1, "}": -1}.get(text[at], 0)
            at += 1
        found.append(text[begun.start() : at])
    return found


# How many checks run at once, at the lowest priority: one core is left to others.
RUNNING = threading.BoundedSemaphore(max(1, os.cpu_count() - 1))


class Mutant:
    """A mutant of a public call, as a block of its file has it."""

    def __init__(self, crate, call, block):
        self.crate, self.call, self.pairs, said = crate, call, [], {}
        for line in block.split("\n"):
            word, _, text = line.partition(": ")
            said[word.removesuffix(":")] = text
            if word.startswith("new"):
                self.pairs.append((said.get("file", ""), said.get("old", ""), text))
        self.title, self.function, self.goal = (said.get(it, "") for it in ("title", "fn", "goal"))

    def label(self):
        return f"mutant of {self.call} in {self.crate.name}: {self.title}"

    def proof(self):
        """The folder of the function's proof, below proofs/."""
        return self.function.replace("::", "/")

    def written(self, texts):
        """The texts with the mutant in them; none where an old text is not once in its function, or this in a cycle."""
        texts = dict(texts)
        for file, old, new in self.pairs:
            own = functions(texts, with_traits=True).get(self.function)
            # what a trait's function does can be in an item beside it
            is_inside = own and own.file == file and (old in own.text(texts) or not own.is_of_trait)
            parts = own.parts(texts) if is_inside else ["", texts.get(file, ""), ""]
            if parts[1].count(old) != 1 or own and own.cycle:
                return None
            texts[file] = parts[0] + parts[1].replace(old, new) + parts[2]
        return texts

    def fault(self, texts):
        """Why it cannot be tried, if so."""
        if not (self.title and self.function and self.goal and self.pairs):
            return "it has no title, function, goal or change"
        made = self.written(texts)
        if made is None:
            return "an old text is not once in its function, or this is in a cycle of calls"
        if any(promises(text) != promises(texts[file]) for file, text in made.items() if text != texts[file]):
            return "it changes a contract, an attribute or ghost code"
        return None

    def copied(self, texts, changed, number):
        """The changed texts with a copy of its function that is the mutant, and the mutant of that copy; nothing where
        the function can't be copied, as a method of a trait."""
        own, name = functions(texts).get(self.function), self.function.rpartition("::")[2]
        if not own:
            return None, None
        placed = copy.copy(self)
        placed.function = f"{self.function}_{number}"
        whole = self.written(texts)
        text = functions(whole)[self.function].text(whole)
        now = functions(changed)[self.function].parts(changed)
        added = re.sub(rf"\bfn {name}\b", f"fn {name}_{number}", text, count=1)
        return {**changed, own.file: f"{now[0]}{now[1]}\n{added}{now[2]}"}, placed


def mutants_of(crate):
    """The mutants of a crate, by its files and in their order."""
    return [Mutant(crate, os.path.basename(path).removesuffix(".edit"), block)
            for path in sorted(glob.glob(f"{crate.folder}/wrong/*.edit"))
            for block in read(path).strip("\n").split("\n\n")]


class Round:
    """Mutants that one check tries, each in a function of its own name. `proofs` has the folder of the proof of each,
    with that of the function of which it is a copy, or else with the same."""

    def __init__(self, texts):
        self.before, self.texts, self.mutants, self.placed, self.proofs = texts, texts, [], [], {}

    def take(self, mutant):
        """Takes a mutant in, in its function or in a copy of it: whether it could."""
        taken = [it.function for it in self.mutants].count(mutant.function)
        texts, placed = mutant.written(self.texts), mutant
        if taken:
            texts, placed = mutant.copied(self.before, self.texts, taken + 1)
        if not texts:
            return False
        self.proofs[placed.proof()] = mutant.proof()
        self.texts, self.mutants, self.placed = texts, [*self.mutants, mutant], [*self.placed, placed]
        return True


class Trial:
    """The checks of one crate's mutants."""

    def __init__(self, crate, words):
        self.crate, self.words, self.before, self.seconds = crate, words, texts_of(crate.folder), 0

    def opened(self, own):
        """The folders of the proofs of all other functions, but for those of cycles."""
        listed = {path.replace("::", "/") for path, it in functions(self.before).items() if not it.cycle}
        answered = map(re.compile(r"proofs/([^+]*)/(?:Answers|Invariants)\.antt").fullmatch, self.before)
        return (listed | {it[1] for it in answered if it}) - own

    def copied_proof(self, of, to):
        """What a function's proof has, for a copy of the function."""
        module, copied = (it.replace("/", ".") for it in (of, to))
        named = re.compile(rf"(Rattle\.{self.crate.name}\.(?:proofs|specs\.contracts))\.{re.escape(module)}\.")
        return {path.replace(f"proofs/{of}/", f"proofs/{to}/", 1): named.sub(rf"\1.{copied}.", text)
                for path, text in self.before.items() if path.startswith(f"proofs/{of}/")}

    def files(self, made):
        """The files that a check of a round reads of its crate."""
        texts = {**self.before, **emptied(made.texts, {it.function for it in made.placed})}
        for to, of in made.proofs.items():
            texts.update(self.copied_proof(of, to))
        opened = self.opened({*made.proofs})
        begins = tuple(f"proofs/{it}/" for it in opened)
        texts = {path: text for path, text in texts.items() if not path.startswith(begins)}
        for proof in opened:
            path, name = proof.replace("/", "."), os.path.basename(proof)
            texts[f"proofs/{proof}/Proof.antt"] = HOLE.format(crate=self.crate.name, path=path, name=name)
        for proof in made.proofs:
            answers = f"proofs/{proof}/Answers.antt"
            texts[answers] = texts.get(answers, "") + NO_OFFERS
        return texts

    def check(self, made):
        """What a check of a round says."""
        with RUNNING, tempfile.TemporaryDirectory(prefix="mutants-") as folder:
            for path, text in self.files(made).items():
                os.makedirs(os.path.dirname(f"{folder}/{path}"), exist_ok=True)
                write(f"{folder}/{path}", text)
            only = [word for it in made.placed for word in ("--only", it.function)]
            words = ["nice", f"{kit()}/bin/rattle", "check", *self.words, "--allow-holes", *only]
            lines = []
            _, seconds = heard(lines.append, *words, cwd=folder)
            self.seconds += seconds
            return "\n".join(lines)

    def judged(self, made):
        """For each mutant of a round whether it is judged as it must be, and a line that says so."""
        said = self.check(made)
        lines = re.sub(r"\n +", " ", said).rstrip("\n").split("\n")
        if not lines[-1].startswith("only=") and len(made.mutants) > 1:
            return [it for mutant in made.mutants for it in self.judged(rounds([mutant], made.before)[0])]
        goals, named = refusals(lines, self.crate.name), set(re.findall(rf"(?m)^fn {self.crate.name}::(\S+):", said))
        first = next((it for it in lines if "error" in it), lines[-1])[:200]
        return [verdict(it, goals.get(it.function, []), it.function in named, first) for it in made.placed]


def refusals(lines, crate):
    """The goals that a check leaves open, by their functions."""
    found, open_goals = {}, []
    for line in lines:
        goal = re.match(r"note: \S+:\d+:\d+: (?:it is not proved|`search` found no proof) .*\(`([^`]+)`\)", line)
        ended = re.match(rf"(?:fn|impl|struct|enum) (?:{crate}::(\S+): (?:no proof|not proved)(.*))?", line)
        if goal:
            open_goals.append(goal[1])
        elif ended:
            # the notes on a function's goals come before its own line
            if ended[1] and line.startswith("fn "):
                found[ended[1]] = open_goals + re.findall(r"`search` did not prove `([^`]+)`", ended[2])
            open_goals = []
    answers = re.compile(r"(?:\./)?proofs/(\S+)/(?:Answers|Invariants|Proof)\.antt:\d+:\d+: error: `([^`]+)`(.*)")
    for path, goal, why in (it.groups() for it in map(answers.match, lines) if it):
        name = path.replace("/", "::")
        if name in found and not TAKEN_AWAY.search(why):
            found[name].append(goal)
    return found


def verdict(mutant, goals, is_named, first):
    """Whether a mutant is judged as it must be where these goals of its function are open, and a line that says so."""
    if not is_named:
        return False, f"{mutant.label()}: BAD: the check does not name {mutant.function}: {first}"
    if not mutant.pairs:
        return not goals, f"{mutant.label()}: {f'REFUSED at {goals[0]}' if goals else 'not refused'}"
    if mutant.goal not in goals:
        return False, f"{mutant.label()}: NOT REFUSED: {mutant.goal} is not open; open are {', '.join(goals) or 'none'}"
    return True, f"{mutant.label()}: refused at {mutant.goal}"


def rounds(mutants, texts):
    """The mutants in as few rounds as they go into."""
    made = []
    for mutant in mutants:
        if not any(it.take(mutant) for it in made):
            made.append(Round(texts))
            made[-1].take(mutant)
    return made


def tried(crate, rlibs):
    """Tries a crate's mutants: whether each is judged as it must be, with a line; the processor seconds that they took;
    and whether an earlier run judged them."""
    mutants, texts, tool = mutants_of(crate), texts_of(crate.folder, ["src"]), os.path.realpath(__file__)
    tools = [tool, *(f"{os.path.dirname(tool)}/{it}.py" for it in ("functions", "repository"))]
    store = kept.Store(crate, [*PARTS, "wrong"], tools)
    if store.path():
        return [(True, it) for it in read(store.path()).splitlines()], 0, True
    faults = [(it, it.fault(texts)) for it in mutants]
    found = [(False, f"{it.label()}: BAD: {fault}") for it, fault in faults if fault]
    good = [it for it, fault in faults if not fault]
    plain = [it for it in good if it.function in functions(texts)]
    plain.sort(key=lambda it: len(functions(texts)[it.function].text(texts)))
    trial = Trial(crate, crate.words(rlibs))
    # the shortest function goes along unchanged, and must not be refused
    unchanged = [copy.copy(it) for it in plain[:1]]
    for it in unchanged:
        it.title, it.pairs = "the function as it is", []
    for made in rounds([*good, *unchanged], texts):
        found += trial.judged(made)
    if all(is_well for is_well, _ in found):
        with tempfile.TemporaryDirectory() as room:
            write(f"{room}/judged", "\n".join(line for _, line in found))
            store.keep(f"{room}/judged")
    return found, trial.seconds, False


def calls():
    """A row for each public call that has mutants: how many, and the clauses that refuse them."""
    found = {}
    for crate in crates().values():
        for it in mutants_of(crate):
            found.setdefault(it.call, []).append(f"{crate.name} {it.function} {it.goal}")
    return [f"{call} | {len(goals)} | {'; '.join(goals)}" for call, goals in sorted(found.items())]


def main(words):
    if words == ["--calls"]:
        print("\n".join(calls()))
        return 0
    known, failed = crates(), 0
    if not set(words) <= set(known):
        return None
    picked = [known[it] for it in words] or [it for it in known.values() if mutants_of(it)]
    with concurrent.futures.ThreadPoolExecutor(os.cpu_count()) as pool:
        for found, _, _ in pool.map(lambda it: tried(it, lambda below: f"{below.folder}/out/rlib"), picked):
            for is_well, line in found:
                print(line, flush=True)
                failed += not is_well
    print(f"{failed} mutants not judged as they must be")
    return 1 if failed else 0


if __name__ == "__main__":
    ended(main)
