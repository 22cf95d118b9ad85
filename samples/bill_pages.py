"""A bill as a page, by the office's rules: one document in ASCII with its style in it, for a browser, for a telephone, and
for paper."""
import re

import office
from pages import escaped

STYLE = """:root{color-scheme:light dark;--ink:#1b1f27;--soft:#5a6270;--line:#d9dee6;--page:#fff;--card:#f6f7f9;--mark:#8a3d00;--link:#2257a5}
@media(prefers-color-scheme:dark){:root{--ink:#e8eaee;--soft:#a3acba;--line:#363d49;--page:#15181d;--card:#1c2027;--mark:#f0b27a;--link:#8ab4f0}}
*{box-sizing:border-box}
body{margin:0;background:var(--page);color:var(--ink);font:16px/1.5 system-ui,-apple-system,'Segoe UI',Roboto,'Helvetica Neue',Arial,sans-serif;font-variant-numeric:tabular-nums lining-nums}
main{max-width:60rem;margin:0 auto;padding:2.5rem 1.25rem 4rem}
header{display:flex;flex-wrap:wrap;justify-content:space-between;gap:.25rem 2rem;padding-bottom:.75rem;border-bottom:2px solid var(--ink)}
header p{margin:0;font-weight:600}
h1{margin:1.75rem 0 0;font-size:2rem;line-height:1.2;font-weight:600;letter-spacing:-.015em}
h1+p{margin:.25rem 0 1.5rem;color:var(--soft)}
b{color:var(--mark)}
dl{display:grid;grid-template-columns:repeat(6,1fr);margin:0 0 1rem;border:1px solid var(--line);border-radius:.5rem;background:var(--card)}
dl div{grid-column:span 2;padding:.6rem 1.1rem;border-top:1px solid var(--line)}
dl .sum{grid-column:span 3;padding:1rem 1.1rem;border-top:0}
dt{color:var(--soft);font-size:.875rem}
dd{margin:0}
.sum dd{font-size:1.75rem;line-height:1.25;font-weight:600}
.sum small{font-size:1rem;font-weight:400}
.note{margin:.75rem 0;color:var(--soft);font-size:.875rem}
table{width:100%;margin:2rem 0 0;border-collapse:collapse}
th,td{padding:.35rem 0 .35rem 1rem;border-top:1px solid var(--line);text-align:right;white-space:nowrap;vertical-align:baseline}
tr>:first-child{padding-left:0}
th{font-weight:500}
thead th{border-top:0;border-bottom:1px solid var(--ink);color:var(--soft);font-size:.8125rem}
thead .title th{border:0;padding-bottom:.1rem;color:var(--ink);font-size:1.125rem;font-weight:600;text-align:left}
tbody:first-of-type tr:first-child>*{border-top:0}
tfoot th,tfoot td{border-top:1px solid var(--ink);font-weight:600}
.work tr>:nth-child(-n+2),.prices tr>:nth-child(-n+2),.shifts tr>:nth-child(-n+2),.records tr>:nth-child(-n+5),.centres tr>:first-child{text-align:left}
.records .name td{padding-top:0;border:0;text-align:left;color:var(--soft);font:.75rem/1.4 ui-monospace,'Cascadia Mono',Consolas,'DejaVu Sans Mono',monospace;white-space:normal;overflow-wrap:anywhere}
.records tr:first-child>*{padding-bottom:.1rem}
.both{display:grid;grid-template-columns:3fr 2fr;gap:0 2.5rem;align-items:start}
a{color:var(--link);text-decoration:none}a:hover,a:focus{text-decoration:underline}
nav{display:flex;flex-wrap:wrap;gap:.5rem 1.5rem;margin-top:2.5rem}
@media screen and (max-width:44rem){
body{font-size:15px}main{padding:1.25rem 1rem 3rem}h1{font-size:1.6rem}
dl{display:block}dl div{display:flex;justify-content:space-between;padding:.4rem .7rem}dl .sum{display:block;padding:.7rem}.sum+.sum{border-top:1px solid var(--line)!important}.sum dd{font-size:1.5rem;overflow-wrap:anywhere}
.both,.rows,.rows thead,.rows tbody,.rows tfoot,.rows .title th{display:block}
th,td{padding-left:.5rem;font-size:.8125rem}.prices thead tr:not(.title) th{white-space:normal}
.rows thead tr:not(.title){display:none}
.rows tr:not(.title){display:flex;flex-wrap:wrap;gap:0 .75rem;padding:.4rem 0;border-top:1px solid var(--line)}
.rows tr:not(.title)::after{content:'';order:2;flex-basis:100%}
.rows tr>*{padding:0!important;border:0!important;font-size:.9375rem}
.rows tr>:last-child:not(:first-child){order:1;margin-left:auto;font-weight:600}
.rows tr>:empty{display:none}
.work tr>:nth-child(n+3):not(:last-child),.records tr>:nth-child(n+3):not(:last-child),.centres tr>:nth-child(n+2):not(:last-child){order:3;color:var(--soft);font-size:.8125rem}
.work tr>:nth-child(3)::after{content:' %'}.work tr>:nth-child(4)::before{content:'count '}.work tr>:nth-child(5)::before{content:'CPU '}.work tr>:nth-child(6)::before{content:'blocks '}
.records tr>:nth-child(6)::before{content:'step '}.records tr>:nth-child(7)::before{content:'of period '}
.rows .name{border:0!important;padding-top:0!important}
.centres tr>:nth-child(2)::before{content:'charged '}.centres tr>:nth-child(3)::before{content:'late '}.centres tr>:nth-child(4)::before{content:'reversed '}
.centres tr>:nth-child(5)::before{content:'owed '}
}
@page{margin:16mm 15mm 20mm;@bottom-right{content:counter(page) ' / ' counter(pages);font:8pt system-ui,Arial,sans-serif;color:#444}@bottom-left{font:8pt system-ui,Arial,sans-serif;color:#444}}
@media print{
:root{color-scheme:light;font-size:9pt;--ink:#000;--soft:#444;--line:#ccc;--page:#fff;--card:#fff;--mark:#000;--link:#000}
body{font-size:1rem;line-height:1.35}main{max-width:none;padding:0}nav{display:none}
h1{margin-top:1.2rem;font-size:2.2rem}.sum dd{font-size:1.9rem}dd{font-size:1.1rem}
table{margin-top:1.6rem}th,td{padding:.17rem 0 .17rem 1rem}thead{display:table-header-group}tfoot{display:table-row-group}
tr,dl,.note,.records tbody{break-inside:avoid}thead,.title,h1{break-after:avoid}tfoot{break-before:avoid}
thead .title th{font-size:1.25rem}.records .name td{font-size:.85rem}
}
"""

# Of a bill with credits: its sums have a column more, and a reason may have several lines.
CREDIT_STYLE = """.credits tr>:first-child{text-align:left;white-space:normal;overflow-wrap:anywhere}
@media screen and (max-width:44rem){
.credited tr>:nth-child(5)::before{content:'credits '}.credited tr>:nth-child(6)::before{content:'owed '}
}
"""

START = """<!DOCTYPE html>
<html lang='en'>
<head>
<meta charset='us-ascii'>
<meta name='viewport' content='width=device-width, initial-scale=1'>
<meta http-equiv='Content-Security-Policy' content="default-src 'none'; style-src 'unsafe-inline'">
<title>%s</title>
<style>
%s@page{@bottom-left{content:'%s'}}
</style>
</head>
<body>
<main>
"""

# How a department checks a row with a pocket calculator.
CHECK = ("<p class='note'>To check a row: (count &#215; price of a record + CPU seconds &#215; price of a CPU second + "
         "blocks &#247; 1,000 &#215; price of 1,000 blocks) &#215; percent &#247; 100, by the prices in force on its day. "
         "Each record is rounded to 0.0001, so a row of n records may be off by n&#160;&#215;&#160;0.00005.</p>\n")


def grouped(figure):
    """A figure with commas between the thousands of what stands before its point."""
    sign, whole, rest = re.fullmatch(r"(-?)(\d*)(.*)", str(figure)).groups()
    return sign + re.sub(r"(?<=\d)(?=(\d{3})+$)", ",", whole) + rest


def row(cells, plain, first=escaped):
    """Cells, of which some are words; the first is shown in a way of its own."""
    shown = [(escaped if at else first)(str(cell)) if at in plain else grouped(cell) for at, cell in enumerate(cells)]
    return "<tr>%s</tr>\n" % "".join("<td>%s</td>" % cell for cell in shown)


def table(kind, title, headings, rows, total=None):
    yield "<table class='%s'>\n<thead>\n<tr class='title'><th colspan='%d' scope='colgroup'>%s</th></tr>\n<tr>" % (
        kind, len(headings), title)
    yield "".join("<th scope='col'>%s</th>" % one for one in headings) + "</tr>\n</thead>\n"
    yield from rows
    yield "" if total is None else "<tfoot>\n%s</tfoot>\n" % total
    yield "</table>\n"


def body(rows):
    yield "<tbody>\n"
    yield from rows
    yield "</tbody>\n"


def money(amount):
    return office.decimals(amount, 4)


class BillPage:
    """The page of the bill of a centre, or of the whole office with a row for each."""

    def __init__(self, model, period, centre):
        self.model, self.period, self.centre = model, period, centre
        self.is_draft, self.tariffs = period == model.open, model.tariffs_in(period)
        self.said = dict(line.split(" ", 1) for line in model.bill_head(period, centre))
        self.credits = model.credits_of(period, centre)

    def name(self):
        return "Draft of bill " + self.said["DRAFT"] if self.is_draft else "Bill " + self.said["NUMBER"]

    def sums_cells(self, word, parts, units=None):
        steps, jobs, late, back, credited = parts
        places = self.model.booked_decimals(self.period)
        units = office.booked(office.owed(*parts), places) if units is None else units
        amounts = (steps + jobs, late, back, *[credited] * (self.credits != []), office.owed(*parts))
        return (word, *map(money, amounts), office.decimals(units, places))

    def total_cells(self):
        places, model = self.model.booked_decimals(self.period), self.model
        units = sum(office.booked(office.owed(*parts), places) for _, parts in model.billed(self.period))
        return self.sums_cells("Total", model.parts(self.period), units)

    def sums(self):
        own = self.total_cells()
        if self.centre:
            own = self.sums_cells(self.centre, self.model.parts(self.period, self.centre))
        currency = " <small>%s</small>" % escaped(self.said["CURRENCY"]) if "CURRENCY" in self.said else ""
        _, charged, late, back, *credited, owed, booked = map(grouped, own)
        yield "<dl>\n"
        for word, figure in (("Owed", owed), ("Booked", booked)):
            yield "<div class='sum'><dt>%s</dt><dd>%s%s</dd></div>\n" % (word, figure, currency)
        others = ("Charged", charged), ("Late", late), ("Reversed", back), *(("Credits", one) for one in credited)
        for word, figure in others:
            yield "<div><dt>%s</dt><dd>%s</dd></div>\n" % (word, figure)
        yield "</dl>\n"

    def top(self):
        name = self.name()
        yield START % (name, STYLE + CREDIT_STYLE * (self.credits != []), name)
        yield "<header>\n<p>%s</p>\n<p>%s</p>\n</header>\n" % (escaped(self.said.get("OFFICE", "Chargeback")), name)
        yield "<h1>%s</h1>\n" % (self.centre or "All centres")
        days = " from " + self.said["FROM"] if "FROM" in self.said else ""
        state = "<b>open: this draft may still change</b>"
        if not self.is_draft:
            state = "closed through %s" % self.model.closes[self.period - 1]
        yield "<p>Period %d%s, %s</p>\n" % (self.period, days, state)
        yield from self.sums()
        count, least, most = self.model.held_back(self.centre)
        if self.is_draft:
            yield "<p class='note'>Disputes: %s. They hold back at least %s and at most %s.</p>\n" % (
                grouped(count), grouped(money(least)), grouped(money(most)))

    def prices(self):
        if not self.tariffs:
            return
        yield "<div class='both'>\n"
        yield from table("prices", "Prices", ("From", "For a", "Record", "CPU second", "1,000 blocks"), body(
            row((one.effective, word, *one.prices_of(subtype)), (0, 1))
            for one in self.tariffs for word, subtype in (("Step", b"\0\4"), ("Job", b"\0\5"))))
        yield from table("shifts", "Percents", ("From", "Shift", "Percent"), body(
            row((one.effective, *shift), (0, 1)) for one in self.tariffs for shift in one.percents()))
        yield "</div>\n"
        if self.centre:
            yield CHECK

    def work_part(self, is_job, by_tariff):
        rows = self.model.work_rows(self.period, self.centre, is_job, by_tariff)
        if not rows:
            return
        has_work = not is_job or self.model.jobs_have_work(self.period)

        def cells(place, sums):
            count, cpu, blocks, amount = sums
            return (*place, count, *((office.decimals(cpu, 2), blocks) if has_work else ("", "")), money(amount))
        title = ("Jobs" if is_job else "Steps") + (" by shift" if by_tariff else " by day")
        work = ("CPU seconds", "Blocks") if has_work else ("", "")
        total = cells(("Total", "", ""), [sum(sums[at] for _, sums in rows) for at in range(4)])
        yield from table("rows work", title, ("Tariff" if by_tariff else "Day", "Shift", "Percent", "Count", *work, "Amount"),
                         body(row(cells(*one), (0, 1)) for one in rows), row(total, (0, 1, 2)))

    def record_part(self, title, which):
        lines = [one for sign, one in self.model.lines(self.period, self.centre) if sign == which]

        def rows(one):
            yield row((one.day, one.shift, one.job, one.program, one.job_id, office.step_of(one),
                       self.model.of_which(self.period, which, one), money(one.amount)), range(7))
            yield "<tr class='name'><td colspan='8'>%s</td></tr>\n" % one.name
        if lines:
            total = row(("Total", *[""] * 6, money(sum(one.amount for one in lines))), range(7))
            yield from table("rows records", title,
                             ("Day", "Shift", "Job", "Program", "Job id", "Step", "Of period", "Amount"),
                             (part for one in lines for part in body(rows(one))), total)

    def credit_part(self):
        if self.credits:
            yield from table("rows credits", "Credits", ("Reason", "Amount"),
                             body(row((reason, money(amount)), (0,)) for _, amount, reason in self.credits),
                             row(("Total", money(sum(amount for _, amount, _ in self.credits))), (0,)))

    def linked(self, centre):
        return "<a href='/bill/%d/%s'>%s</a>" % (self.period, centre, centre)

    def centres(self):
        rows = [row(self.sums_cells(*one), (0,), self.linked) for one in self.model.billed(self.period)]
        credited = self.credits != []
        yield from table("rows centres" + " credited" * credited, "Centres",
                         ("Centre", "Charged", "Late", "Reversed", *["Credits"] * credited, "Owed", "Booked"),
                         body(rows), row(self.total_cells(), (0,)))

    def links(self):
        own = str(self.period) if self.centre is None else "%d/%s" % (self.period, self.centre)
        yield "<nav aria-label='Texts'>\n<a href='/'>office</a>\n<a href='/period/%d'>period %d</a>\n" % (
            self.period, self.period)
        if self.centre:
            yield "<a href='/bill/%d'>all centres</a>\n<a href='/details/%s'>details</a>\n" % (self.period, own)
        yield "<a href='/bill-csv/%s'>bill-csv</a>\n</nav>\n</main>\n</body>\n</html>\n" % own

    def parts(self):
        yield from self.top()
        if self.centre is None:
            yield from self.centres()
        yield from self.prices()
        if self.centre:
            for by_tariff in (True, False):
                for is_job in (False, True):
                    yield from self.work_part(is_job, by_tariff)
            yield from self.record_part("Late", 1)
            yield from self.record_part("Reversed", -1)
            yield from self.credit_part()
        yield from self.links()


def bill_page(model, period, centre=None):
    return "".join(BillPage(model, period, centre).parts())
