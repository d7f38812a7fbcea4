"""The rules once more, in plain python: what a schedule's report is. Written from the manual, to lead the generator and to compare with."""
