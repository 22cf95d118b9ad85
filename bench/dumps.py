"""Dumps for `run`, `serve`, `pages` and others: the records of samples/make, with another job, other times and other numbers in each."""
import pathlib
import runpy
import struct
import types

DAYS = 31
LONGEST_BLOCK = 32760

# Offsets in a record, its descriptor included: of what differs from record to record, and of what is spoiled.
JOB, JOB_ID, BLOCKS, TCB_TIME = 72, 104, 148, 160
INITIATION = 128
TIME, DATE, IDENTIFICATION_COUNT, ACTIVITY_LENGTH, ACCOUNTING = 6, 10, 38, 44, 64

SAMPLES_MAKE = pathlib.Path(__file__).resolve().parent.parent / "samples" / "make"
make = types.SimpleNamespace(**runpy.run_path(str(SAMPLES_MAKE)))


def patched(data, offset, field):
    """The data with another field at an offset that counts from the descriptor."""
    at = offset - 4
    return data[:at] + field + data[at + len(field):]


def with_accounts(data, *fields):
    lengths = sum(1 + len(field) for field in fields)
    triplet = struct.pack(">IHH", len(data) + 4, lengths, len(fields))
    return patched(data, ACCOUNTING, triplet) + b"".join(bytes([len(field)]) + field for field in fields)


def work_of_a_job(day):
    """Three steps, and the end of the job with two accounting fields."""
    for step in (1, 2, 3):
        yield make.work(program="STEPPGM%d" % step, step=step, day=day, hour=6 + step)
    yield with_accounts(make.work(subtype=5, day=day, hour=10), make.name("A100", 4), make.name("PROJECT7"))


def pieces(record):
    """What is before, between and after the fields that `usage` fills in."""
    starts = (0, JOB + 8, JOB_ID + 8, BLOCKS + 4, TCB_TIME + 4)
    ends = (JOB, JOB_ID, BLOCKS, TCB_TIME, len(record))
    return [record[start:end] for start, end in zip(starts, ends)]


def of_each_day(data_of):
    return [make.segment(data_of(day)) for day in range(1, DAYS + 1)]


HEADERS = of_each_day(lambda day: make.header(2, day))
TRAILERS = of_each_day(lambda day: make.header(3, day))
LOST = of_each_day(lambda day: make.header(7, day))
OTHER_TYPE = of_each_day(lambda day: make.header(70, day) + bytes(300))
OTHER_SUBTYPE = of_each_day(lambda day: make.work(subtype=2, day=day))
CONTINUATIONS = of_each_day(lambda day: make.work(processors=0, day=day))
USAGE = [pieces(make.segment(data)) for day in range(1, DAYS + 1) for data in work_of_a_job(day)]
DIGITS = bytes.maketrans(b"0123456789", make.name("0123456789", 10))


def usage(number, more_time=0):
    """The usage record of that number; no two are of one step, or of one job's end."""
    name = make.name("J", 1) + (b"%07d" % (number // 4)).translate(DIGITS)
    blocks = struct.pack(">I", number * 37 % 100000)
    time = struct.pack(">I", number * 7919 % 60000 + more_time)
    front, program, sections, activity, rest = USAGE[number % len(USAGE)]
    return b"".join((front, name, program, name, sections, blocks, activity, time, rest))


def dated(number, day, more_time=0):
    """The usage record of that number, of this day of the year."""
    record = usage(number, more_time)
    return record[:DATE] + make.packed(day) + record[DATE + 4:]


def begun_later(number, more_time=0):
    """The usage record of that number, but for work that began a hundredth of a second later."""
    record = usage(number, more_time)
    begun, = struct.unpack_from(">I", record, INITIATION)
    return record[:INITIATION] + struct.pack(">I", begun + 1) + record[INITIATION + 4:]


def spanned(number):
    return make.spanned(usage(number)[4:] + bytes(400), 200, 400)


def repeated(number):
    return usage(number - 400)


def contradicting(number):
    return usage(number - 400, more_time=1)


def damaged(number):
    """Cut off, or spoiled at one of five places."""
    data = make.work(day=number % DAYS + 1)
    return make.segment((
        data[:12],
        patched(data, DATE, b"\x01\x24\x36\x7f"),
        patched(data, TIME, struct.pack(">I", 8640000)),
        patched(data, IDENTIFICATION_COUNT, bytes(2)),
        patched(data, ACTIVITY_LENGTH, bytes(2)),
        with_accounts(data, make.name("A100", 4))[:-1],
    )[number // 100 % 6])


def day_by_day(records):
    return lambda number: records[number // 1000 % DAYS]


def a_thousand():
    """What is at each place of a thousand records: mostly usage records."""
    kinds = [usage] * 1000
    kinds[3::20] = [day_by_day(OTHER_TYPE)] * 50
    kinds[13::20] = [day_by_day(OTHER_SUBTYPE)] * 50
    kinds[7::50] = [day_by_day(CONTINUATIONS)] * 20
    kinds[9::100] = [spanned] * 10
    kinds[50::100] = [damaged] * 10
    kinds[501:503] = [repeated] * 2
    kinds[601:603] = [contradicting] * 2
    kinds[0], kinds[500], kinds[999] = map(day_by_day, (HEADERS, LOST, TRAILERS))
    return kinds


def mixed(count):
    """Records of every class, with some that repeat or contradict others. Each is given as its segments."""
    kinds = a_thousand()
    for number in range(count):
        yield kinds[number % 1000](number)


def distinct(count):
    """Usage records, each of other work."""
    return map(usage, range(count))


def variants(count):
    """Usage records of one step, each with another time: they contradict each other."""
    return (usage(0, more) for more in range(count))


def segments_of(record):
    if record[2] == make.COMPLETE:
        return (record,)
    length = int.from_bytes(record[:2], "big")
    return (record[:length],) + (segments_of(record[length:]) if length < len(record) else ())


def blocks_of(records):
    """The segments of records in blocks that are as long as they can be."""
    held, length = [], 4
    for record in records:
        for segment in segments_of(record):
            if length + len(segment) > LONGEST_BLOCK:
                yield struct.pack(">HH", length, 0) + b"".join(held)
                held, length = [], 4
            held.append(segment)
            length += len(segment)
    yield struct.pack(">HH", length, 0) + b"".join(held)


def write(path, layout, records):
    with open(path, "wb", 1 << 20) as dump:
        dump.writelines(records if layout == "rdw" else blocks_of(records))
