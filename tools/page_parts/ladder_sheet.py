"""The page of a packet ladder: a table of rows, each with its arrows on the routers' lanes."""
import datetime
import html

import lsas

MOST = 4000
LISTED = 12
HIGH, MIDDLE, HEAD = 24, 12, 9
STYLE = """:root { color-scheme: light dark; --back: #fff; --ink: #1b1f24; --quiet: #59626d;
  --lane: #c3cad2; --rule: #e3e7ec; --hello: #737d88; --dd: #7443b5; --request: #b3541e;
  --update: #0b57c2; --ack: #1f7a4d; --drop: #c0172d; --state: #59626d; --head: #f6f7f9; }
@media (prefers-color-scheme: dark) { :root { --back: #14171b; --ink: #e6e9ed; --quiet: #a3adb8;
  --lane: #4a545f; --rule: #262c33; --hello: #98a1ab; --dd: #bd97f5; --request: #f0a36b;
  --update: #7db4ff; --ack: #63c896; --drop: #ff6b75; --state: #a3adb8; --head: #1c2127; } }
body { margin: 0; padding: 12px 18px; background: var(--back); color: var(--ink);
  font: 14px/1.4 system-ui, -apple-system, "Segoe UI", "Liberation Sans", sans-serif; }
h1 { font-size: 20px; margin: 0 0 4px; overflow-wrap: anywhere; } p { margin: 4px 0; }
.quiet { color: var(--quiet); } .key { margin-right: 18px; white-space: nowrap; }
.key i { display: inline-block; width: 22px; height: 0; margin-right: 6px; vertical-align: 4px;
  border-top: 3px solid; }
table { border-collapse: separate; border-spacing: 0; margin-top: 10px; }
th, td { padding: 0 10px 0 0; text-align: left; vertical-align: top; }
thead th { position: sticky; top: 0; background: var(--back); padding-bottom: 4px; z-index: 1; }
tbody td { border-top: 1px solid var(--rule); padding-top: 1px; padding-bottom: 1px; }
tbody th { font-weight: 400; color: var(--quiet); white-space: nowrap; text-align: right;
  border-top: 1px solid var(--rule); font-variant-numeric: tabular-nums; padding-top: 3px; }
td.lanes { padding: 0; background-repeat: no-repeat; } td.lanes svg { display: block; }
td.say { padding: 3px 0 2px 12px; min-width: 24em; max-width: 60em; overflow-wrap: anywhere; }
td.say ul { margin: 0; padding-left: 18px; color: var(--quiet); }
.names text { font: 600 13px system-ui, sans-serif; text-anchor: middle; fill: var(--ink); }
.names rect { fill: var(--head); stroke: var(--lane); }
b { font-weight: 600; } .badge { border: 1px solid var(--drop); color: var(--drop);
  border-radius: 4px; padding: 0 6px; font-size: 12px; white-space: nowrap; }
.hidden { position: absolute; width: 1px; height: 1px; overflow: hidden; clip-path: inset(50%);
  white-space: nowrap; }
.fold td, .fold th { color: var(--quiet); background-color: var(--head); }"""
COLOURS = {"Hello": "hello", "DD": "dd", "LS Request": "request", "LS Update": "update",
           "LS Ack": "ack", "drop": "drop", "state": "state", "hellos": "hello"}
KEYS = ("Hello", "DD", "LS Request", "LS Update", "LS Ack")


class Lanes:
    """Where the lane of each router is."""

    def __init__(self, routers, named):
        self.named = named
        longest = max([len(named(it)) for it in routers] or [1])
        self.wide = max(100 if len(routers) > 4 else 130, 8 * longest + 24)
        self.places = {it: self.wide // 2 + at * self.wide for at, it in enumerate(routers)}
        self.whole = self.wide * max(len(routers), 1)

    def heads(self):
        """The names of the routers at the top of their lanes."""
        inner, size = "", self.wide - 14
        for router, x in self.places.items():
            inner += (f'<rect x="{x - size / 2:.0f}" y="1" width="{size}" height="24" rx="5"/>'
                      f'<text x="{x}" y="18">{html.escape(self.named(router))}</text>')
        return (f'<svg class="names" width="{self.whole}" height="26" aria-hidden="true">'
                f"{inner}</svg>")

    def style(self):
        """The lanes, as the background of a cell."""
        line = "linear-gradient(var(--lane), var(--lane))"
        places = ", ".join(f"{x}px 0" for x in self.places.values())
        images = ", ".join([line] * len(self.places))
        return (f"td.lanes {{ background-image: {images or 'none'}; "
                f"background-position: {places or '0 0'}; background-size: 1px 100%; }}")

    def picture(self, row):
        """The arrows of a row."""
        inner, colour = "", f"var(--{COLOURS[row.kind]})"
        x = self.places[row.router]
        for other in [*row.to, *(it for it in row.dropped if it not in row.to)]:
            inner += arrow(x, self.places[other], colour, row.again, other in row.dropped)
        if row.kind == "drop":
            inner += cross(x)
        elif row.kind == "hellos":
            inner = ""
        elif not row.to and row.kind != "state":
            inner += arrow(x, x + self.wide * 0.4, colour, row.again, False)
        mark = "" if row.kind in ("drop", "hellos") else (
            f'<rect x="{x - 5}" y="{MIDDLE - 5}" width="10" height="10" rx="2" fill="{colour}"/>'
            if row.kind == "state" else f'<circle cx="{x}" cy="{MIDDLE}" r="4" fill="{colour}"/>')
        return (f'<svg width="{self.whole}" height="{HIGH}" aria-hidden="true">{inner}{mark}'
                "</svg>")


def cross(x):
    """What a drop ends with."""
    d = f"M{x - 5} {MIDDLE - 5}l10 10m0 -10l-10 10"
    return f'<path d="{d}" stroke="var(--drop)" stroke-width="3" fill="none"/>'


def arrow(x, to, colour, is_again, is_dropped):
    """An arrow, dashed if it goes again; one that is dropped ends in a cross before its lane."""
    side = 1 if to > x else -1
    end = to - side * (10 if is_dropped else HEAD)
    dashes = ' stroke-dasharray="6 4"' if is_again else ""
    line = (f'<line x1="{x}" y1="{MIDDLE}" x2="{end:.0f}" y2="{MIDDLE}" stroke="{colour}" '
            f'stroke-width="2"{dashes}/>')
    if is_dropped:
        return line + cross(to - side * 10)
    d = f"M{to:.0f} {MIDDLE}l{-side * HEAD} -5v10z"
    return line + f'<path d="{d}" fill="{colour}"/>'


def time_of(ladder, time):
    """A time, in ticks or in seconds from the first packet."""
    seconds = time / lsas.SECOND
    return f"{seconds:.0f} s" if ladder.has_ticks else f"{seconds:.3f} s"


def words_of(row, named):
    """A row in words, for the last column."""
    if row.kind in ("drop", "state", "hellos"):
        colour = f' style="color:var(--{COLOURS[row.kind]})"' if row.kind != "hellos" else ""
        who = "" if row.kind == "hellos" else f"<b>{html.escape(named(row.router))}</b> "
        return f"<span{colour}>{who}{html.escape(row.text)}</span>"
    title = f'<b style="color:var(--{COLOURS[row.kind]})">{row.kind}</b>'
    to = ", ".join(map(named, row.to))
    ends = html.escape(f"{named(row.router)} to {to}: " if to else f"{named(row.router)}: ")
    badges = ' <span class="badge">again</span>' if row.again else ""
    for router, cause in row.dropped.items():
        drops = html.escape(f"{named(router)} drops it: {cause}")
        badges += f' <span class="badge">{drops}</span>'
    text = f'<span class="hidden">{ends}</span>{title} '
    text += f"{html.escape(row.text)}{badges}"
    lines = [f"<li>{html.escape(it)}</li>" for it in row.lines[:LISTED]]
    if len(row.lines) > LISTED:
        lines.append(f"<li>and {len(row.lines) - LISTED} more</li>")
    return text + (f"<ul>{''.join(lines)}</ul>" if lines else "")


def body_of(ladder, rows, lanes):
    """The rows of the table. A time is written where it changes."""
    last = None
    for row in rows:
        time = time_of(ladder, row.time)
        shown = "" if time == last else time
        if row.kind == "hellos" and row.until != row.time:
            shown = f"{time} to {time_of(ladder, row.until)}"
        last = time
        fold = ' class="fold"' if row.kind == "hellos" else ""
        yield (f'<tr{fold}><th scope="row">{shown}</th><td class="lanes">{lanes.picture(row)}</td>'
               f'<td class="say">{words_of(row, lanes.named)}</td></tr>')


def legend():
    keys = "".join(f'<span class="key"><i style="color:var(--{COLOURS[it]})"></i>{it}</span>'
                   for it in KEYS)
    return (f"<p>{keys}</p><p class=\"quiet\">Dashed and marked again: a retransmission. Cross: "
            "the router drops the packet. Square: a router or a neighbor changes state.</p>")


def beginning(ladder):
    if ladder.has_ticks:
        return "Times are ticks of the simulation, in seconds."
    seconds = ladder.start / lsas.SECOND
    date = datetime.datetime.fromtimestamp(seconds, datetime.timezone.utc)
    return f"Seconds since the first packet, {date:%Y-%m-%d %H:%M:%S} UTC."


def page(title, ladder, rows, left):
    """The page of a ladder."""
    lanes, whole = Lanes(ladder.routers, ladder.named), len(rows)
    rows = rows[:MOST]
    counts = f"{len(ladder.routers)} routers, {whole} rows. {beginning(ladder)}"
    if whole > MOST:
        counts += f" The first {MOST} rows are shown: choose others with --from and --to."
    counts += "".join(f" Left out: {left[it]} {html.escape(it)}." for it in sorted(left))
    title, body = html.escape(title), "\n".join(body_of(ladder, rows, lanes))
    return f"""<!DOCTYPE html>
<html lang="en"><head><meta charset="utf-8"><title>{title}</title>
<meta name="viewport" content="width=device-width, initial-scale=1">
<meta http-equiv="Content-Security-Policy" content="default-src 'none'; style-src 'unsafe-inline'">
<style>{STYLE}
{lanes.style()}</style></head><body>
<h1>{title}</h1>
<p class="quiet">{counts}</p>
{legend()}
<table><thead><tr><th scope="col">Time</th>
<th scope="col"><span class="hidden">From and to</span>{lanes.heads()}</th>
<th scope="col">Packet</th></tr></thead><tbody>
{body}
</tbody></table>
</body></html>
"""
