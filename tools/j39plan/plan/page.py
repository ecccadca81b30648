"""The HTML page of a plan."""

import os
from collections import defaultdict
from collections.abc import Iterable, Iterator
from fractions import Fraction
from html import escape
from itertools import groupby

from j39plan.j1939 import NAME_FIELDS
from j39plan.plan.answers import Age, Delay, Finding, Load, PlanAnswer, Stand
from j39plan.plan.bus_shares import Shares, shares_of
from j39plan.plan.page_style import STYLE
from j39plan.plan.parts import Source
from j39plan.plan.tables import Flow, Group, Signal, Tables, Text, Unit, serves

# How many receivers stand beside one another, so that a matrix fits on a sheet of paper.
RECEIVERS = 8

# The most raw number that is a value, of the kinds of which not all are.
MEASURED = {8: 0xFA, 16: 0xFAFF, 32: 0xFAFFFFFF}

# What of a NAME a unit's table has beside the whole.
FIELDS = [key for key, _, _ in NAME_FIELDS if key != "arbitrary"]


def spaced(key: str) -> str:
    """A key as words."""
    return key.replace("_", " ")


def row(head: str, cells: Iterable[str], scope: str = "row") -> str:
    """A table's row; its cells are HTML."""
    return f'<tr><th scope="{scope}">{head}</th>' + "".join(f"<td>{cell}</td>" for cell in cells) + "</tr>"


def table(caption: str, heads: Iterable[str], rows: Iterable[str], kind: str = "") -> str:
    """A table with a caption and headers of its columns, in a frame that scrolls where it is too wide."""
    top = "".join(f'<th scope="col">{head}</th>' for head in heads)
    label = f' class="{kind}"' if kind else ""
    return (
        f'<div class="wide" role="region" tabindex="0" aria-label="{caption}"><table{label}>\n<caption>{caption}</caption>\n'
        f"<thead><tr>{top}</tr></thead>\n<tbody>\n" + "\n".join(rows) + "\n</tbody>\n</table></div>"
    )


def section(name: str, heading: str, parts: Iterable[str]) -> str:
    """A section with its heading."""
    inside = "\n".join(parts)
    return f'<section id="{name}" aria-labelledby="{name}-heading">\n<h2 id="{name}-heading">{heading}</h2>\n{inside}\n</section>'


def finding_section(title: str, found: list[Finding]) -> str:
    """The findings with their lines, or that there is none."""
    if not found:
        return section("findings", "Findings", ["<p><strong>ok</strong>: <code>check</code> found nothing.</p>"])
    rows = []
    for number, finding in enumerate(found, 1):
        steps = "<br>".join(f"<code>{escape(step)}</code>" for step in finding.steps) or "–"
        place = f"<code>{title}:{finding.line}</code>"
        rows.append(row(str(number), [place, f"<code>{escape(finding.text)}</code>", escape(finding.hint) or "–", steps]))
    heads = ("No.", "File and line", "Finding", "What to look at", "A run that shows it")
    return section("findings", "Findings", [table(f"Findings: {len(found)}", heads, rows)])


def standing(unit: Unit, stands: dict[str, Stand]) -> str:
    """Where a unit stands, in words."""
    if not unit.claims:
        return "in every run, and never claims it"
    if unit.label not in stands:
        return "no vehicle has it" if stands else "not known: the addresses have findings"
    return "in every run" if stands[unit.label].stays else "may move"


def unit_section(source: Source, tables: Tables, stands: dict[str, Stand]) -> str:
    """The units with the fields of their NAMEs and where they stand."""
    units = tables.units
    if not units:
        return section("units", "Units", ["<p>The plan has no units.</p>"])
    where = [
        row(escape(unit.label), [str(unit.address), standing(unit, stands), "arbitrary" if unit.may_choose else "fixed",
            unit.chooser if unit.may_choose else "–", str(unit.window)])
        for unit in units
    ]
    names = [
        row(escape(unit.label), [f"<code>{unit.name}</code>", *(str(unit.fields.get(key, "any")) for key in FIELDS)])
        for unit in units
    ]
    kept = ", ".join(map(str, source.kept))
    heads = ("Unit", "Planned address", "Keeps it", "Address capability", "New address", "Packets per CTS")
    parts = [
        table("Units and where they stand", heads, where),
        table("NAMEs of the units", ("Unit", "NAME", *map(spaced, FIELDS)), names, "numbers"),
    ]
    notes = [f"<p>Addresses that no unit may choose: {kept}.</p>"] if kept else []
    if tables.strangers:
        notes.append(f"<p>Units that may come and stand in no plan, and may choose their addresses: up to {tables.strangers}.</p>")
    if tables.live:
        notes.append("<p>The bus is live: messages begin while units claim, and units go off in the midst of one.</p>")
    return section("units", "Units", parts + notes)


def senders(flows: list[Flow]) -> dict[str, list[str]]:
    """Who sends each group."""
    sent: dict[str, list[str]] = defaultdict(list)
    for flow in flows:
        if flow.sender not in sent[flow.group]:
            sent[flow.group].append(flow.sender)
    return sent


def byte_row(byte: int, owners: list[str], is_inside: bool) -> str:
    """The row of a byte, the most significant bit first; neighbouring bits of one signal are one cell."""
    cells = []
    for owner, bits in groupby(reversed(owners)):
        width = len(list(bits))
        span = f' colspan="{width}"' if width > 1 else ""
        cells.append(f"<td{span}>{owner}</td>" if owner else f'<td class="free"{span}>free</td>')
    outside = "" if is_inside else " (outside)"
    return f'<tr><th scope="row">{byte}{outside}</th>{"".join(cells)}</tr>'


def byte_rows(group: Group) -> Iterator[str]:
    """The bytes of a group; those without a signal that follow one another, and have the same texts, are one row."""
    owners: dict[int, list[str]] = defaultdict(list)
    texts: dict[int, list[str]] = defaultdict(list)
    for signal in group.signals:
        for bit in signal.span:
            owners[bit].append(escape(signal.shown))
    for text in group.texts:
        for byte in text.places(group.most):
            texts[byte].append(escape(text.label))
    used = {bit // 8 + 1 for bit in owners}
    for byte in set(group.further(group.most)) - used:
        texts[byte].append("further records")
    last = max(used | set(texts) | {group.most})
    for (is_used, named, is_inside), run in groupby(
        range(1, last + 1), lambda byte: (byte in used, " and ".join(texts.get(byte, ())), byte <= group.most)
    ):
        bytes_ = list(run)
        if is_used:
            for byte in bytes_:
                names = [" and ".join([*owners.get(bit, ()), *texts.get(byte, ())]) for bit in range(8 * byte - 8, 8 * byte)]
                yield byte_row(byte, names, is_inside)
        else:
            head = (str(bytes_[0]) if len(bytes_) == 1 else f"{bytes_[0]} to {bytes_[-1]}") + ("" if is_inside else " (outside)")
            cell = f'<td colspan="8">{named}</td>' if named else '<td class="free" colspan="8">free</td>'
            yield f'<tr><th scope="row">{head}</th>{cell}</tr>'


def decimal(signal: Signal, raw: int) -> str:
    """The value of a raw number, as exactly as ten digits show it."""
    value = signal.value(raw)
    return str(value.numerator) if value.denominator == 1 else f"{float(value):.10g}"


def range_of(signal: Signal) -> str:
    """The least and the greatest value that a signal can have."""
    if signal.kind == "dtc":
        return "trouble codes"
    least, most = 0, 2 ** signal.bits - 1
    if signal.kind == "measured":
        most = MEASURED.get(signal.bits, most)
    elif signal.kind in ("discrete", "states"):
        most -= 2
    elif signal.kind == "signed":
        least, most = -(2 ** (signal.bits - 1)), 2 ** (signal.bits - 1) - 1
    return f"{decimal(signal, least)} to {decimal(signal, most)}"


def formula(signal: Signal) -> str:
    """How a value is had from the raw number."""
    if signal.kind == "dtc":
        return "–"
    scaled = "raw" if signal.step == 1 else f"{signal.step} × raw"
    if signal.offset:
        scaled += f" {'+' if signal.offset > 0 else '−'} {abs(signal.offset)}"
    if signal.per == 1:
        return scaled
    return f"({scaled}) / {signal.per}" if signal.offset else f"{scaled} / {signal.per}"


def signal_row(signal: Signal, is_named: bool) -> str:
    """A signal by where it lies and what it means, with its number and the names of its raw numbers, where some of its group has any."""
    cells = [f"{signal.byte}.{signal.bit}", str(signal.bits), signal.kind, formula(signal), range_of(signal), signal.unit or "–"]
    named = "<br>".join(f"{raw} {escape(name)}" for raw, name in sorted(signal.values.items()))
    more = ["–" if signal.spn is None else str(signal.spn), named or "–"] if is_named else []
    return row(escape(signal.shown), [*(escape(cell) for cell in cells), *more])


def text_row(text: Text) -> str:
    """A text by where it lies."""
    return row(escape(text.label), (str(text.byte), "to the end" if text.bytes is None else str(text.bytes)))


def group_part(number: int, group: Group, sent_by: list[str]) -> str:
    """A group with the map of its bytes, its signals and its texts."""
    label, who = escape(group.label), escape(", ".join(sent_by)) or "nobody"
    own = ", a maker's own number" if group.private else ""
    bytes_ = f"{group.length}" if group.length == group.most else f"{group.length} to {group.most}"
    records = f", records {group.every} bytes apart" if group.every else ""
    when = group.when
    told = f", selected by {when.bits} bits from {when.byte}.{when.bit} on, which are {when.value}" if when else ""
    facts = f"PGN {group.pgn} (<code>{group.pgn:04X}</code>){own}, priority {group.priority}, bytes: {bytes_}{records}{told}, sent by {who}."
    bits = [f"bit {bit}" for bit in range(8, 0, -1)]
    parts = [f'<h3 id="group-{number}">{label}</h3>', f"<p>{facts}</p>",
             table(f"Bytes of {label}", ("Byte", *bits), byte_rows(group), "bytes")]
    if group.signals:
        is_named = any(signal.spn is not None or signal.values for signal in group.signals)
        heads = ("Signal", "Byte.bit", "Bits", "Kind", "Value", "Range", "Unit of measurement", *(("SPN", "Names of raw numbers") if is_named else ()))
        parts.append(table(f"Signals of {label}", heads, (signal_row(signal, is_named) for signal in group.signals)))
    if group.texts:
        parts.append(table(f"Texts of {label}", ("Text", "Byte", "Bytes"), map(text_row, group.texts)))
    return f'<article aria-labelledby="group-{number}">\n' + "\n".join(parts) + "\n</article>"


def group_section(tables: Tables) -> str:
    """The groups, each with its bytes."""
    if not tables.groups:
        return section("groups", "Groups", ["<p>The plan has no groups.</p>"])
    sent = senders(tables.flows)
    return section(
        "groups", "Groups",
        [group_part(number, group, sent.get(group.label, [])) for number, group in enumerate(tables.groups, 1)],
    )


def links_of(tables: Tables) -> dict[str, str]:
    """Of each group a link to it."""
    return {group.label: f'<a href="#group-{number}">{escape(group.label)}</a>' for number, group in enumerate(tables.groups, 1)}


def needed(tables: Tables, flow: Flow) -> str:
    """Which units need what a flow brings, behind its group."""
    units = dict.fromkeys(escape(need.unit) for need in tables.needs if need.is_met_by(flow))
    return f" for {', '.join(units)}" if units else ""


def age_cell(age: Age) -> str:
    """How old what is needed is, where that is known."""
    by = f" by flow {age.flow}" if age.flow is not None else ""
    if age.age is not None:
        return in_milliseconds(age.age) + by
    return "<strong>not shown to be so young</strong>" if age.old is None else f"<strong>{in_milliseconds(age.old)}{by}, too old</strong>"


def need_section(tables: Tables, load: Load | None) -> str:
    """Who needs what, who brings it, and how old it is when it comes."""
    links, ages = links_of(tables), {age.need: age for age in load.ages} if load else {}
    rows = []
    for number, need in enumerate(tables.needs, 1):
        senders = dict.fromkeys(escape(flow.sender) for flow in tables.flows if need.is_met_by(flow))
        age = ages.get(number)
        shown = "–" if age is None else age_cell(age)
        rows.append(row(str(number), [
            escape(need.unit), links[need.group], escape(need.signal) or "–", escape(need.sender) or "any unit",
            ", ".join(senders) or "<strong>nobody</strong>", f"{need.within} ms" if need.within else "–", shown,
        ]))
    heads = ("Need", "Unit", "Group", "Signal", "From", "Brought by", "Not older than", "Age")
    return section("needs", "Needs", [table("Who needs what, and who brings it", heads, rows)])


def request_section(tables: Tables) -> str:
    """Who asks whom for what, and who answers."""
    links, rows = links_of(tables), []
    for number, request in enumerate(tables.requests, 1):
        answers = dict.fromkeys(escape(flow.sender) for flow in tables.flows if serves(flow.group, flow.sender, flow.to, request))
        rows.append(row(str(number), [links[request.group], escape(request.sender), escape(request.to),
                                      ", ".join(answers) or "<strong>nobody</strong>", f"{request.period} ms" if request.period else "–"]))
    heads = ("Request", "Group", "From", "To", "Answered by", "Period")
    return section("requests", "Requests", [table("Who asks whom for what, and who answers", heads, rows)])


def flow_section(tables: Tables) -> str:
    """Who sends what to whom, on request alone or not, and which units need it: a row a sender, a column a receiver."""
    if not tables.flows:
        return section("flows", "Flows", ["<p>The plan has no flows.</p>"])
    links = links_of(tables)
    cells: dict[tuple[str, str], list[str]] = defaultdict(list)
    for flow in tables.flows:
        cells[flow.sender, flow.to].append(links[flow.group] + " on request" * flow.on_request + needed(tables, flow))
    order = [unit.label for unit in tables.units]
    receivers = [label for label in ("all", *order) if any(to == label for _, to in cells)]
    parts = []
    for first in range(0, len(receivers), RECEIVERS):
        some = receivers[first:first + RECEIVERS]
        rows = [
            row(escape(sender), ["<br>".join(cells.get((sender, to), ["–"])) for to in some])
            for sender in order if any((sender, to) in cells for to in some)
        ]
        more = f", receivers {first + 1} to {first + len(some)} of {len(receivers)}" if len(receivers) > RECEIVERS else ""
        heads = ("From", *(f"to {escape(to)}" for to in some))
        parts.append(table(f"Groups by sender and receiver{more}", heads, rows))
    return section("flows", "Flows", parts)


def in_milliseconds(microseconds: int) -> str:
    """A time in us as ms."""
    text = f"{microseconds // 1000}.{microseconds % 1000:03}"
    return f"{text.rstrip('0').rstrip('.')} ms"


def premises(tables: Tables) -> list[str]:
    """What the bounds rest on, as the plan says it: what else comes on the bus, and how the controllers send."""
    timing = tables.timing
    if timing is None:
        return []
    errors, unordered = timing.errors, [escape(unit.label) for unit in tables.units if unit.queue == "any"]
    facts = {
        "Unplanned frames that may go before a planned one": f"{timing.unplanned}, of priority {timing.unplanned_priority} to 7",
        "Priority of the transport protocol": str(timing.transport_priority),
        "Between packets to all": f"{timing.broadcast_gap} to {timing.broadcast_gap_most} ms",
        "Clocks": f"{timing.drift} ppm from true time at most",
        "Damaged frames": f"{errors.count} in {errors.every} ms at most" if errors else "none",
        "Controllers that keep no order of priority": ", ".join(unordered) or "none",
    }
    return [table("What the times rest on", ("Premise", "In the plan"), [row(head, [said]) for head, said in facts.items()])]


def paced(flow: Flow) -> list[str]:
    """By how much a flow's messages are late, and how far apart they come at most."""
    return [f"{flow.jitter} ms" if flow.jitter else "–", f"{flow.pause} ms" if flow.pause else "–"]


def share_of(time: int, limit: int) -> str:
    """How much of the time that there is a time takes."""
    return f"{100 * time / limit:.1f} %"


def late_cells(late: int | None, limit: int) -> list[str]:
    """A late flow: the time that it takes, where that is known."""
    if late is None:
        return ["<strong>not shown to be in time</strong>", in_milliseconds(limit), "–"]
    return [f"<strong>{in_milliseconds(late)}, late</strong>", in_milliseconds(limit), share_of(late, limit)]


def bus_cell(bits: Fraction | int | None, bitrate: int) -> str:
    """What part of the bus so many bits a second take."""
    return f"{100 * float(bits) / bitrate:.2f} %" if bits is not None else "–"


def delay_row(delay: Delay, flow: Flow, link: str, taken: str, is_paced: bool) -> str:
    """A flow with what it takes of the bus and its delay, in words where it has none."""
    if not delay.frames:
        cells = ["no period", "–", "–"]
    elif delay.within is None:
        cells = [f"no bound: {delay.frames} frames a message", "–", "–"] if delay.limit is None else late_cells(delay.late, delay.limit)
    elif delay.limit is None:
        cells = [f"{in_milliseconds(delay.within)}, the whole message", "–", "–"]
    else:
        cells = [in_milliseconds(delay.within), in_milliseconds(delay.limit), share_of(delay.within, delay.limit)]
    ends = [link, escape(flow.sender), escape(flow.to), f"{flow.period} ms" if flow.period else "–"]
    return row(str(delay.flow), [*ends, *(paced(flow) if is_paced else []), taken, *cells])


def other_rows(tables: Tables, shares: Shares, bitrate: int, links: dict[str, str], is_paced: bool) -> Iterator[str]:
    """What else takes a part of the bus: requests, and damaged frames."""
    blank = ["–"] * (2 * is_paced)
    for number, bits in shares.requests.items():
        request = tables.requests[number - 1]
        ends = [links[request.group], escape(request.sender), escape(request.to), f"{request.period} ms"]
        yield row(f"request {number}", [*ends, *blank, bus_cell(bits, bitrate), "–", "–", "–"])
    if shares.damage:
        yield row("damaged frames", ["–"] * 4 + [*blank, bus_cell(shares.damage, bitrate), "–", "–", "–"])


def load_table(tables: Tables, load: Load, taken: int, bitrate: int) -> str:
    """Each flow with its delay and its part of the bus; where these are all of the load, with their sum."""
    links, shares = links_of(tables), shares_of(tables, tables.timing) if tables.timing else Shares({}, {}, 0)
    is_paced = any(flow.jitter or flow.pause for flow in tables.flows)
    rows = [delay_row(delay, flow, links[flow.group], bus_cell(shares.flows.get(flow.number), bitrate), is_paced)
            for delay in load.delays for flow in [tables.flows[delay.flow - 1]]]
    rows += other_rows(tables, shares, bitrate, links, is_paced)
    if shares.total == taken:
        rows.append(row("all", ["–"] * (4 + 2 * is_paced) + [bus_cell(taken, bitrate), "–", "–", "–"]))
    heads = ("Flow", "Group", "From", "To", "Period", *(("Jitter", "Pause") if is_paced else ()), "Bus load", "On the bus within", "Limit", "Of its limit")
    return table("Delays of the flows", heads, rows)


def load_section(tables: Tables, load: Load, is_line: bool) -> str:
    """Within which time the frames of each flow are on the bus, and how full it is."""
    if load.taken is None:
        return section("load", "Load", ["<p>Not known: addresses or identifiers have findings that are to be mended first.</p>"])
    taken, bitrate = load.taken
    full = " <strong>That is more than the bus carries.</strong>" if taken > bitrate else ""
    worst = " Load, times and ages are those of the worst vehicle of the line." if is_line else ""
    parts = [f"<p>{taken} of {bitrate} bits a second at most, {100 * taken / bitrate:.1f} % of the bitrate.{full}{worst}</p>"]
    if load.delays:
        parts.append("<p>The times count from when a frame is ready in its controller, and hold where the bus keeps what they rest on.</p>")
        parts += [*premises(tables), load_table(tables, load, taken, bitrate)]
    return section("load", "Load", parts)


def sections_of(title: str, source: Source, tables: Tables, answer: PlanAnswer) -> dict[str, str]:
    """The sections of a plan by their names; one that says nothing of the bus has no load."""
    load = answer.load
    return {"findings": finding_section(escape(title), answer.found), "units": unit_section(source, tables, answer.stands), "flows": flow_section(tables),
            **({"needs": need_section(tables, load)} if tables.needs else {}),
            **({"requests": request_section(tables)} if tables.requests else {}),
            **({"load": load_section(tables, load, bool(source["choice"]))} if load else {}), "groups": group_section(tables)}


def counts_of(source: Source, tables: Tables, found: list[Finding]) -> str:
    """How many tables a plan has, and how many findings."""
    counts = f"{len(tables.units)} units, {len(tables.groups)} groups, {len(tables.flows)} flows, findings: {len(found)}"
    return f"<p>Version {source.version} of the format: {counts}.</p>"


def document(heading: str, facts: str, sections: dict[str, str], footer: str, style: str = STYLE) -> str:
    """A whole page of sections by their names, below a heading and what is said with it."""
    links = "".join(f'<li><a href="#{name}">{name[0].upper() + name[1:].replace("-", " ")}</a></li>' for name in sections)
    return f"""<!DOCTYPE html>
<html lang="en">
<head>
<meta charset="utf-8">
<meta http-equiv="Content-Security-Policy" content="default-src 'none'; style-src 'unsafe-inline'">
<meta name="viewport" content="width=device-width, initial-scale=1">
<meta name="color-scheme" content="light dark">
<title>{heading}</title>
<style>
{style}</style>
</head>
<body>
<a class="skip" href="#content">To the content</a>
<header>
<h1>{heading}</h1>
{facts}
<nav aria-label="Sections"><ul>{links}</ul></nav>
</header>
<main id="content">
{chr(10).join(sections.values())}
</main>
<footer>{footer}</footer>
</body>
</html>
"""


def page(title: str, source: Source, tables: Tables, answer: PlanAnswer, footer: str, labels: str = "", choices: str = "") -> str:
    """The whole page, of a line or a vehicle of it with its choices and, as labels, which it is. The title is the name of the plan's file."""
    heading = f"Plan {escape(os.path.basename(title))}" + (f" ({escape(labels)})" if labels else "")
    first = {"choices": choices} if choices else {}
    return document(heading, counts_of(source, tables, answer.found), {**first, **sections_of(title, source, tables, answer)}, footer)
