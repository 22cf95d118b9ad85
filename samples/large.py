"""Scripts of large inputs: long records, many records, many charge rows, many commands in one list. What is asked is
made here, and answered by rows.py."""
import datetime

import rows

FIRST = datetime.date(2024, 1, 1)
RECORD = 168


def spanned(name, *cuts):
    """The parts of two segments that have the data of a record, cut at a place."""
    for kind, first, last in (("01", 4, cuts[0]), ("02", cuts[0], "")):
        size = (last or cuts[1]) - first + 4
        yield "x:%04X%s00 %s/%d..%s" % (size, kind, name, first, last)


def long_record(size, cut):
    """A row on a step's record that is longer than its sections are: zeros stand after them."""
    name = "of_%d_bytes" % size
    yield ""
    yield "> dump %s x:%04X sample/2.. zeros:%d" % (name, size, size - RECORD)
    yield "> row a_record_%s new" % name
    yield "> records " + name
    yield from ("> tariff january", "> import " + name)
    yield "# The same record, in two segments."
    yield "> import " + " ".join(spanned(name, cut, size))
    yield from ("> post /import " + name, "> statement 1", "> disputes")


def many_commands():
    yield ""
    yield "> row a_list_of_10001_commands new"
    yield from ("> tariff january", "> list 10001", "| import sample", "> list 10001", "| close 1 2024-01-31",
                "> statement 1", "> statement 2")


def many_rows():
    """Steps of 1,001 days, a charge row each."""
    days = [FIRST + datetime.timedelta(number) for number in range(1001)]
    yield ""
    yield "# Steps 0 to 1,000, of which each has a day of its own, by the months."
    yield "> dump daily sample*1001@112"
    for month in sorted({(day.year, day.month) for day in days}):
        places = ("%d:01%sF" % (number * RECORD + 10, day.strftime("%y%j")) for number, day in enumerate(days)
                  if (day.year, day.month) == month)
        yield "> dump daily daily " + " ".join(places)
    yield "> row a_table_of_1001_rows new"
    yield from ("> tariff january", "> import daily", "> writer all 1..2", "> statement 1", "> writer", "> table 1")


def large():
    """Rows on books of either kind."""
    yield "# Long records, many commands, many charge rows; made by samples/make."
    yield from long_record(40000, 20004)
    yield from long_record(65535, 32772)
    yield from many_commands()
    yield from many_rows()


def many_records():
    """The same close of many records, on books in memory."""
    yield "# A close of 10,001 records that are held; made by samples/make."
    yield ""
    yield "> row a_close_of_10001_records new"
    yield from ("> tariff january", "> import sample*10001@112", "> close 1 2024-01-31", "> import sample*10001@112",
                "> statement 1", "> statement 2", "> adjustments 2", "> disputes")


def many_records_in_files():
    """And on books in a file, with a tariff that comes late for all of them."""
    yield "# A late tariff for 10,001 records that are held, and a close of them, in a file; made by samples/make."
    yield from ("> text to_mid_january", '| effective = "2024-01-15"', "| [rates]", "| step_cpu = 30000")
    yield "> text dearer to_mid_january other_rates"
    yield ""
    yield "> row a_close_of_10001_records_in_a_file commands"
    yield from ("> file @many.smf sample*10001@112", "> text-file @january.toml january", "> chargectl init @books",
                "> chargectl tariff @books @january.toml", "> chargectl import @books @many.smf",
                "> text-file @dearer.toml dearer", "> chargectl tariff @books @dearer.toml", "> chargectl statement @books 1",
                "> chargectl close @books 1 2024-01-31", "> chargectl import @books @many.smf")
    yield from ("> chargectl %s @books%s" % tuple(words) for words in (
        ("statement", " 1"), ("statement", " 2"), ("adjustments", " 2"), ("disputes", ""), ("audit", "")))
    yield from ("> count-lines chargectl details @books 1", "> count-bytes chargectl details @books 1 --csv")


SCRIPTS = {"large.rows": large, "many_records.rows": many_records, "many_records_in_files.rows": many_records_in_files}


def answered(data, name):
    """The lines of a script with its answers."""
    return rows.played(data, "".join(line + "\n" for line in SCRIPTS[name]()))
