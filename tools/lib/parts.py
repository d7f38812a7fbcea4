"""The parts of ./test: a row each. To add one, write its row; a part's last line is 'N passed, M failed', or its status counts as one."""

import collections

# name: what the line of progress calls it
# words: what is run, from the top of the repository; `--ours` finds the proved program, or the kept unproved build
# programs: the programs that must stand before it begins
# unproved: what is run instead where one of these is an unproved build, which is some hundred times slower; NOT_RUN: nothing
# early: whether .ci/run runs it before anything is proved; such a part needs no program, and takes some seconds
Part = collections.namedtuple("Part", "name words programs unproved early", defaults=((), None, False))
NOT_RUN = ("not run",)
COMMITTEE, BOTH, ALL = ("committee",), ("committee", "inspect"), ("committee", "inspect", "validator")
EXAMPLES = ("example_client", "example_file", "example_payment")

PARTS = (
    Part("edits that must fail", ("tools/edits", "--check"), early=True),
    Part("layout of the sources", ("tools/layout", "--check"), early=True),
    Part("crates and paths", ("tools/paths", "--check"), early=True),
    Part("statements that stand twice", ("tools/twice", "--check"), early=True),
    Part("what nothing uses", ("tools/unused", "--check"), early=True),
    Part("what executes a block", ("tools/executes", "--check"), early=True),
    Part("rules and their cases", ("conformance/list", "--check"), early=True),
    Part("pages made from sources", ("tools/pages", "check"), early=True),
    Part("causes, limits and orders", ("conformance/tables.py", "--missing"), early=True),
    Part("chains as bytes", ("conformance/chains.py", "--check"), early=True),
    Part("journals as bytes", ("conformance/journals.py", "--check"), early=True),
    Part("many transactions", ("conformance/many.py", "--check"), early=True),
    Part("tools", ("tools/test_tools", "all"), early=True),
    Part("hunt", ("tools/test_hunt", "all")),
    Part("pages of runs", ("tools/test_view", "all")),
    Part("faults of the system", ("tools/test_faults", "--ours"), ALL),
    Part("journal under kills", ("tools/test_journal", "--seconds", "5", "--ours"), COMMITTEE),
    Part("images of crashes", ("tools/crash_images", "--trace", "--ours"), COMMITTEE, ("tools/crash_images", "--trace", "--replays", "20", "--ours")),
    Part("conformance", ("conformance/run", "--ours"), BOTH),
    Part("stops at each record", ("tools/stopped", "--most", "6", "--ours"), COMMITTEE, ("tools/stopped", "--most", "1", "--ours")),
    Part("chains into check", ("tools/chains", "--ours"), BOTH),
    Part("committee of processes", ("tools/test_processes", "--ours"), BOTH),
    Part("examples of the manual", ("tools/check_manual", "--ours"), COMMITTEE),
    Part("plain program", ("tools/baseline", "--check")),
    Part("examples over the library", ("tools/test_examples", "--check"), EXAMPLES),
    Part("library for C and Python", ("tools/test_library", "--check")),
)
