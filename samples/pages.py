"""The office's pages as HTML, apart from the program: of all its periods, and of one of them. office.py knows what books
say; this says what a page shows of it, tag for tag. It is called by office.py, and by what looks at pages (bench/pages)."""
import datetime
import office

WIDTH, COLOURS = 10000, 8
REFERENCES = {"&": "&amp;", "<": "&lt;", ">": "&gt;", '"': "&quot;", "'": "&#39;"}
# The reports to which a page leads, by their paths.
OF_ALL = "periods rulings disputes disputes-csv".split()
OF_PERIODS = ("bill bill-csv statement statement-csv adjustments adjustments-csv details details-csv focus coverage "
              "coverage-csv").split()

STYLE = """:root{color-scheme:light dark;--ink:#1d2129;--soft:#626a78;--line:#dfe3ea;--page:#fbfbfa;--card:#fff;--link:#2257a5}
@media(prefers-color-scheme:dark){:root{--ink:#e8eaee;--soft:#9aa3b2;--line:#333a46;--page:#15181d;--card:#1c2027;--link:#8ab4f0}}
.c0{--c:#4c78a8}.c1{--c:#e08a2e}.c2{--c:#54a24b}.c3{--c:#b279a2}.c4{--c:#d8544f}.c5{--c:#5ea8a3}.c6{--c:#d9b53c}.c7{--c:#9d755d}.c8{--c:#8d95a3}
*{box-sizing:border-box}
body{margin:0;background:var(--page);color:var(--ink);font:16px/1.5 system-ui,-apple-system,'Segoe UI',Roboto,sans-serif}
main{max-width:76rem;margin:0 auto;padding:2.5rem 1.25rem 4rem}
header{margin-bottom:2rem}header p{margin:0;color:var(--soft)}
h1{margin:.25rem 0;font-size:2.25rem;line-height:1.2;font-weight:600;letter-spacing:-.02em}
a{color:var(--link);text-decoration:none}a:hover,a:focus{text-decoration:underline}
.scroll{overflow-x:auto;margin:1.5rem 0;padding:.25rem 1.25rem 1rem;background:var(--card);border:1px solid var(--line);border-radius:.75rem}
table{width:100%;border-collapse:collapse;font-variant-numeric:tabular-nums}
caption{padding:.75rem 0 .5rem;text-align:left;font-size:1.125rem;font-weight:600}
th,td{padding:.4rem 1rem .4rem 0;border-top:1px solid var(--line);text-align:left;white-space:nowrap}
thead th{border-top:0;color:var(--soft);font-size:.8125rem;font-weight:500}
tfoot td{border-top:2px solid var(--ink);font-weight:600}
tbody:empty::after{content:'None';color:var(--soft)}
tr>:last-child{padding-right:0}
.office tr>:nth-child(n+3),.statement tr>:nth-child(n+4),.adjustments tr>:nth-child(5),.disputes tr>:nth-child(3),.bars tr>:nth-child(n+3){text-align:right}
.bars td:nth-child(2){width:100%}.disputes tbody th{padding-top:1rem;font-weight:500}
td a[href^='/record/']{display:inline-block;max-width:13ch;overflow:hidden;text-overflow:ellipsis;vertical-align:bottom}
svg{display:block;width:100%;min-width:10rem;height:1rem;border-radius:.2rem;background:var(--line)}
rect{fill:var(--c);shape-rendering:crispEdges}
ul{display:flex;flex-wrap:wrap;gap:.25rem 1.25rem;margin:-.5rem 0 2rem;padding:0;list-style:none;color:var(--soft);font-size:.875rem}
li[class^=c]::before{content:'';display:inline-block;width:.75rem;height:.75rem;margin-right:.4rem;border-radius:.2rem;background:var(--c)}
dl{display:flex;flex-wrap:wrap;gap:1rem 3rem;margin:0 0 1.5rem}
dt{color:var(--soft);font-size:.875rem}
dd{margin:0;font-size:1.5rem;font-variant-numeric:tabular-nums}
nav{display:flex;flex-wrap:wrap;gap:.5rem 1.5rem;margin-top:2rem}
@media print{:root{--ink:#000;--soft:#444;--line:#bbb;--page:#fff;--card:#fff;--link:#000}body{font-size:10px}main{max-width:none;padding:0}nav{display:none}.scroll{overflow:visible;padding:0;border:0}thead{display:table-header-group}tr{break-inside:avoid}rect,li{print-color-adjust:exact}td a[href^='/record/']{max-width:none}}
"""

START = """<!DOCTYPE html>
<html lang='en'>
<head>
<meta charset='us-ascii'>
<meta name='viewport' content='width=device-width, initial-scale=1'>
<meta http-equiv='Content-Security-Policy' content="default-src 'none'; style-src 'unsafe-inline'">
<title>%s</title>
<style>
""" + STYLE.replace("%", "%%") + """</style>
</head>
<body>
<main>
"""
END = """</main>
</body>
</html>
"""
TABLE_END, FOOT_START, FOOT_END = "</tbody>\n</table>\n</div>\n", "</tbody>\n<tfoot>", "</tfoot>\n</table>\n</div>\n"


def escaped(text):
    """A text, none of whose characters makes markup."""
    return "".join(REFERENCES.get(one, one) for one in text)


def amount(number):
    return office.decimals(number, 4)


def table_row(*cells):
    return "<tr>%s</tr>\n" % "".join("<td>%s</td>" % cell for cell in cells)


def table(kind, caption, headings):
    """What stands above the rows of a table."""
    return "<div class='scroll'>\n<table class='%s'>\n<caption>%s</caption>\n<thead><tr>%s</tr></thead>\n<tbody>" % (
        kind, caption, "".join("<th scope='col'>%s</th>" % one for one in headings))


def period_link(period):
    return "<a href='/period/%d'>%d</a>" % (period, period)


def record_link(name):
    return "<a href='/record/%s'>%s</a>" % (name, name)


def links(back, named):
    """The foot of a page."""
    yield "<nav aria-label='Texts'>\n" + back
    for path, name in named:
        yield "<a href='%s'>%s</a>\n" % (path, name)
    yield "</nav>\n" + END


# ---- Pictures

def length(most, cost):
    """Of a bar, where the greatest has the whole width."""
    return min(WIDTH, cost * WIDTH // max(1, most))


def bar(colour, start, long, title):
    return "<rect class='c%d' x='%d' width='%d' height='1'><title>%s</title></rect>" % (colour, start, long, title)


def colour(index):
    """Of the centre of an index: those after the first ones share a grey."""
    return min(index, COLOURS)


def picture(label, bars):
    return "<svg viewBox='0 0 %d 1' preserveAspectRatio='none' role='img' aria-label='%s'>%s</svg>" % (WIDTH, label, bars)


def centre_bars(most, costs, centres):
    """The bars of centres one after the other. A centre without cost has none."""
    start = 0
    for index, centre in enumerate(centres):
        cost = costs.get(centre, 0)
        long = length(most, cost)
        if cost:
            yield bar(colour(index), start, long, "%s %s" % (escaped(centre), amount(cost)))
        start = min(WIDTH, start + long)


def costs_by(rows, at):
    """What rows come to by their day (0), or by their centre (1), in order."""
    costs = {}
    for place, sums in sorted(rows, key=lambda row: row[0][at]):
        costs[place[at]] = costs.get(place[at], 0) + sums[3]
    return costs


def costs_by_day(rows):
    """The same of each day from the first to the last: one without a row costs nothing."""
    costs = costs_by(rows, 0)
    first, last = (datetime.date.fromisoformat(edge(costs, default="1900-01-01")) for edge in (min, max))
    days = ((first + datetime.timedelta(more)).isoformat() for more in range((last - first).days + 1))
    return {day: costs.get(day, 0) for day in days} if costs else {}


def bar_cells(most, label, cost):
    shown = escaped(label)
    title = "%s %s" % (shown, amount(cost))
    return shown, picture(title, bar(0, 0, length(most, cost), title)), amount(cost)


def day_table(rows):
    """A bar for each day."""
    costs = costs_by_day(rows)
    yield table("bars", "Cost by day", "Day Cost Charged".split())
    for day, cost in costs.items():
        yield table_row(*bar_cells(max(costs.values()), day, cost))
    yield TABLE_END


def centre_table(rows, lines, credits):
    """For each centre a bar of what the statement charges it, and what came late, what was reversed, what is credited where
    something is, and what it owes."""
    costs = costs_by(rows, 1)
    yield table("bars", "Cost by centre", ["Centre", "Cost", "Charged", "Late", "Reversed", *["Credits"] * (credits != []), "Owed"])
    for centre in sorted({*costs, *(one.centre for _, one in lines), *(to for to, _, _ in credits)}):
        charged = costs.get(centre, 0)
        late, reverses = (sum(one.amount for sign, one in lines if (sign, one.centre) == (which, centre)) for which in (1, -1))
        own = sum(one for to, one, _ in credits if to == centre)
        cells = bar_cells(max(costs.values(), default=0), centre, charged)
        yield table_row(*cells, *map(amount, (late, reverses, *[own] * (credits != []), charged + late - reverses - own)))
    yield TABLE_END


# ---- Figures of a period

def figures(books, period):
    """How many records it counts, what it charges, adds and reverses, and what it is owed, which is less by its credits."""
    rows, lines = books.rows(period), books.lines(period)
    records, charged = (sum(sums[at] for _, sums in rows) for at in (0, 3))
    added, reverses = (sum(one.amount for sign, one in lines if sign == which) for which in (1, -1))
    return records, charged, added, reverses, charged + added - reverses - credited(books, period)


def credited(books, period):
    """What its credits come to."""
    return sum(one for _, one, _ in books.credits_of(period))


def said(books, period, key):
    """What the last tariff of a period says of the office."""
    return escaped(([""] + [one.letterhead(key) for one in books.tariffs_in(period)])[-1])


def currency(books, period):
    shown = said(books, period, "currency")
    return "<div><dt>Currency</dt><dd>%s</dd></div>\n" % shown if shown else ""


# ---- The page of the office

def legend(centres):
    """Which colour is whose."""
    for index, centre in enumerate(centres[:COLOURS]):
        yield "<li class='c%d'>%s</li>\n" % (colour(index), escaped(centre))
    if len(centres) > COLOURS:
        yield "<li class='c8'>and %d more</li>\n" % (len(centres) - COLOURS)


def office_parts(books):
    """The open period comes first."""
    periods = range(books.open, 0, -1)
    told = {period: figures(books, period) for period in periods}
    costs = {period: costs_by(books.rows(period), 1) for period in periods}
    most, centres = max(one[1] for one in told.values()), sorted(set().union(*costs.values()))
    yield START % "Office"
    yield "<header>\n<p>%s</p>\n<h1>Office</h1>\n</header>\n<dl>\n" % (said(books, books.open, "office") or "Chargeback")
    yield currency(books, books.open)
    yield "<div><dt>Disputes</dt><dd>%d</dd></div>\n</dl>\n" % len(books.disputed())
    yield table("office", "Periods", "Period State Records Charged Added Reversed Owed".split())
    for period in periods:
        records, *amounts, owed = told[period]
        yield table_row(period_link(period), books.head(period), records, *map(amount, amounts),
                        "<a href='/bill/%d'>%s</a>" % (period, amount(owed)))
    yield TABLE_END
    yield table("bars", "Cost by centre", ("Period", "Cost", "Charged"))
    for period in periods:
        bars = "".join(centre_bars(most, costs[period], centres))
        yield table_row(period_link(period), picture("Period %d by centre" % period, bars), amount(told[period][1]))
    yield TABLE_END
    yield "<ul>\n%s</ul>\n" % "".join(legend(centres))
    yield from links("", [("/" + path, path) for path in OF_ALL])


def office_page(books):
    return "".join(office_parts(books))


# ---- The page of a period

def gaps(books, period):
    """How often a system has no record on a day of the period, where anything is counted."""
    records = [times for _, _, times in books.coverage_rows(period)]
    return sum(not times for times in records) if records else "No records"


def head(books, period):
    """The office's name, its number, whether it is open, its sums, the currency, and its gaps. What is credited is there only
    where something is."""
    _, *sums, owed = figures(books, period)
    credits = [("Credits", credited(books, period))] * (books.credits_of(period) != [])
    yield "<header>\n<p><a href='/'>%s</a></p>\n<h1>Period %d</h1>\n<p>%s</p>\n</header>\n<dl>\n" % (
        said(books, period, "office") or "Office", period, books.head(period))
    for name, one in [*zip(("Charged", "Added", "Reversed"), sums), *credits, ("Owed", owed)]:
        yield "<div><dt>%s</dt><dd>%s</dd></div>\n" % (name, amount(one))
    yield currency(books, period) + "<div><dt>Gaps</dt><dd>%s</dd></div>\n</dl>\n" % gaps(books, period)


def row_cells(place, sums):
    count, cpu, blocks, cost = sums
    return (*map(escaped, place), count, office.decimals(cpu, 2), blocks, amount(cost))


def statement(rows):
    yield table("statement", "Statement", ("Day", "Centre", "Shift", "Records", "CPU seconds", "Blocks", "Amount"))
    for place, sums in rows:
        yield table_row(*row_cells(place, sums))
    yield FOOT_START + table_row(*row_cells(("Total", "", ""), [sum(sums[at] for _, sums in rows) for at in range(4)]))
    yield FOOT_END


def adjustments(lines):
    yield table("adjustments", "Adjustments", "Sign Day Centre Shift Amount Record Job".split())
    for sign, one in lines:
        yield table_row(office.ACTIONS[sign], one.day, escaped(one.centre), escaped(one.shift), amount(sign * one.amount),
                        record_link(one.name), escaped(one.job))
    total = amount(sum(sign * one.amount for sign, one in lines))
    yield FOOT_START + table_row("Total", "", "", "", total, "", "") + FOOT_END


def is_in(books, period, day):
    """The day is one of the period's."""
    return books.period_of(day) == period


def disputes(books, period):
    """On the page of the open period all of them, as they hold work back now; else those that have a record dated in it."""
    yield table("disputes", "Disputes", ("Record", "Day", "Amount", "Completion", "Job id", "Program"))
    for identity, members in books.disputed():
        if period == books.open or any(is_in(books, period, one.day) for one in members):
            line = office.dispute_line(identity) + "\n"
            yield "<tr><th colspan='6' scope='rowgroup'>%s</th></tr>\n" % escaped(line)
            for one in members:
                yield table_row(record_link(one.name), one.day, amount(one.amount), one.code, escaped(one.job_id),
                                escaped(one.program))
    yield TABLE_END


def period_parts(books, period):
    rows = books.rows(period)
    yield START % ("Period %d" % period)
    yield from head(books, period)
    yield from day_table(rows)
    yield from centre_table(rows, books.lines(period), books.credits_of(period))
    yield from statement(rows)
    yield from adjustments(books.lines(period))
    yield from disputes(books, period)
    yield from links("<a href='/'>office</a>\n", [("/%s/%d" % (path, period), path) for path in OF_PERIODS])


def period_page(books, period):
    return "".join(period_parts(books, period))
