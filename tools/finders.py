"""Whether finders find what the machine finds, and lists change nothing: each case is asked of `sre_probes` four times.

The answers to these probes (docs/GATE.md) have to be one. Lines that are no match, search or walk are passed over.
"""
import repository

PROBES = ("shown", "told", "finder", "spans")


def agree(program, tell, lines):
    """Whether the answers to each line are one; those that are not are told."""
    asked = [it for it in lines if it.split(" ")[0] in ("match", "search", "walk")]
    answers = repository.answers(program, [f"{probe} {line}" for line in asked for probe in PROBES])
    found = [(line, told) for line, told in zip(asked, zip(*[iter(answers)] * len(PROBES))) if len(set(told)) > 1]
    for line, told in found:
        tell("\n".join([line, *(f"  {probe:7} {it}" for probe, it in zip(PROBES, told))]))
    if len(answers) != len(asked) * len(PROBES):
        tell(f"{program} has no answer to each of {len(asked)} lines")
    return not found and len(answers) == len(asked) * len(PROBES)
