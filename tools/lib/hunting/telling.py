"""What a hunt hands over: a finding in words, as a case, and as JUnit has it."""

import os
from xml.sax.saxutils import escape, quoteattr

from .running import Plain


def shown(data, most=60, wide=None):
    """The lines of a text, a little to the right; of a long text only its end, and of a wide line only its beginning."""
    lines = data.decode("latin-1").split("\n")[:-1] or ["(nothing)"]
    cut = [f"    .. {len(lines) - most} lines before"] if len(lines) > most else []
    return "\n".join([*cut, *(f"    {line if not wide or len(line) <= wide else f'{line[:wide]}...'}" for line in lines[-most:])])


def story(finding, complaint=b""):
    """A finding with its schedule and both reports, and what the program wrote to standard error."""
    parts = [f"seed {finding.seed}, profile {finding.profile}: {finding.kind}", finding.said, "the schedule:", shown(finding.schedule)]
    if finding.wanted:
        parts += [f"wanted, status {finding.wanted.status}:", shown(finding.wanted.report, wide=200)]
    parts += [f"had, status {finding.had.status}:", shown(finding.had.report, wide=200)]
    return "\n".join([*parts, "and on standard error:", shown(complaint, 20, 200)] if complaint else parts)


def save(folder, finding):
    """The finding as a case of conformance: the report is that which was wanted, or where there is none the plain model's."""
    wanted = finding.wanted or Plain().answer(finding.schedule)
    os.makedirs(folder, exist_ok=True)
    about = f"Found by seed {finding.seed} of the profile {finding.profile}: {finding.kind}.\nrules:\n"
    parts = {"schedule": finding.schedule, "report": wanted.report, "status": f"{wanted.status}\n".encode(), "about": about.encode()}
    for ending, data in parts.items():
        with open(f"{folder}/found-{finding.profile}-{finding.seed}.{ending}", "wb") as it:
            it.write(data)


def junit(path, program, tried, findings):
    """One test case a seed; those of the findings have failed."""
    lines = ['<?xml version="1.0" encoding="UTF-8"?>', f'<testsuite name="hunt" tests="{len(tried)}" failures="{len(findings)}">']
    by_seed = {it.seed: it for it in findings}
    for seed in tried:
        name = f"  <testcase classname={quoteattr(program)} name=\"seed {seed}\""
        if seed in by_seed:
            text = "".join(it if it == "\n" or " " <= it <= "~" else "?" for it in story(by_seed[seed]))
            lines.append(f"{name}><failure message={quoteattr(by_seed[seed].kind)}>{escape(text)}</failure></testcase>")
        else:
            lines.append(f"{name}/>")
    with open(path, "w", encoding="utf-8") as it:
        it.write("\n".join([*lines, "</testsuite>"]) + "\n")
