"""The worked rows of books once more, under the second rule of identity: each row adopts it first. The records of these
rows share their time and date of initiation, so one thing alone is another then: the line of a dispute goes on with
that time and date; where the size of a text is told it grows by these words, and the row of the book has the rule."""
import re

START = " START 002BDA90 0124031F"
DISPUTE = re.compile(r"\S+ .*READER [0-9A-F]{8} [0-9A-F]{8} SUBTYPE \d+ STEP \d+")
ON_BOOKS = ("new", "one-name", "flat")

# The scripts whose rows are played so, by the script that has them then.
SCRIPTS = {
    "second_rule.rows": "closed_periods command_lists tariffs open_tariffs choices sample_tariff closes last_period "
                        "calls accounts classes disputes statements reports largest one_name",
    "second_rule_flat.rows": "flat_books",
    "second_rule_in_tables.rows": "kept_rows kept_tables kept_choices changed_rows unavailable",
    "second_rule_in_files.rows": "choices_in_files"}


def rows_of(script):
    """The lines of a script but for comments: those of each row, and before them those that stand before any."""
    parts = [[]]
    for line in script.splitlines():
        if line.startswith("> row "):
            parts.append([])
        if line and not line.startswith("#"):
            parts[-1].append(line)
    return parts


def adopted(lines):
    """The lines of a row under the second rule."""
    asked, grown = "", 0
    for line in lines:
        if line.startswith("> "):
            asked, grown = line[2:], 0
        # A trial has books of its own, which begin under the first rule.
        if DISPUTE.fullmatch(line) and not asked.startswith("trial "):
            line, grown = line + START, grown + len(START)
        elif line.startswith("TOOK "):
            line = re.sub(r"\d+", lambda size: str(int(size[0]) + grown), line, count=1)
        elif asked == "book" and not line.startswith("> "):
            line = re.sub("^1 1 0 ", "1 2 1 ", line)
        yield line
        words = line.split()
        if words[:2] == [">", "row"] and words[3] in ON_BOOKS:
            yield from ("> adopt 2", "DONE")
        elif line.startswith("> chargectl init "):
            yield from ("> chargectl adopt " + words[3], "DONE")


def second_rule(data, scripts):
    """The lines of a script that has the rows of these scripts under the second rule."""
    yield "# Worked rows once more, under the second rule of identity, which each row adopts first: made by"
    yield "# samples/make of the scripts that are named here. Notes stand in these."
    for name in scripts:
        first, *rows = rows_of((data / (name + ".rows")).read_text())
        yield from ["", "# " + name] + first
        for row in rows:
            lines = list(adopted(row))
            if len(lines) > len(row):
                yield from [""] + lines
