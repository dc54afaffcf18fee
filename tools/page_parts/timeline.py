"""The adjacencies and routes of a journal over time: a row for each, above an axis of ticks."""
import html
import itertools

STATES = {
    "Down": "#ffffff",
    "Init": "#fde0c5",
    "2-Way": "#cfe3f5",
    "ExStart": "#f8b884",
    "Exchange": "#f2945d",
    "Loading": "#e0703a",
    "Full": "#4c9f70",
}
WIDTH, ROW, LEFT, RIGHT = 1000, 18, 190, 20


def scale_to(last):
    """Where a tick stands."""
    return lambda tick: LEFT + (WIDTH - LEFT - RIGHT) * tick / max(last, 1)


def step_of(last):
    """How many ticks lie between two numbers of the axis: 1, 2 or 5 times a power of ten, and at
    most eleven numbers."""
    steps = (times * 10**power for power in itertools.count() for times in (1, 2, 5))
    return next(step for step in steps if last <= 10 * step)


def bars(row, states, last, place):
    """The bars of one adjacency: its states, one after the other."""
    for (tick, state), (until, _) in zip(states, [*states[1:], (last, None)]):
        if state != "Down":
            wide = max(place(until) - place(tick), 1.5)
            yield (
                f'<rect x="{place(tick):.1f}" y="{row * ROW + 3}" width="{wide:.1f}" '
                f'height="{ROW - 6}" fill="{STATES.get(state, "#999")}">'
                f"<title>{html.escape(state)}: ticks {tick} to {until}</title></rect>"
            )


def timeline(changes, last):
    """A row for each adjacency, and one for each router with the ticks at which its routes
    changed."""
    adjacencies, routes = {}, {}
    for change in changes:
        if change.neighbour:
            link, neighbour, _, state = change.neighbour.groups()
            adjacencies.setdefault((change.router, int(link), neighbour), []).append(
                (change.tick, state)
            )
        elif change.text == "stopped":
            # A router that stops forgets its neighbours, and no line says so.
            for (router, _, _), states in adjacencies.items():
                if router == change.router:
                    states.append((change.tick, "Down"))
        elif change.is_route:
            routes.setdefault(change.router, set()).add(change.tick)
    place = scale_to(last)
    rows = [
        (f"{router} link {link}: {other}", bars, states)
        for (router, link, other), states in sorted(adjacencies.items())
    ]
    high = (len(rows) + len(routes) + 1) * ROW + 24
    parts = [
        f'<svg class="time" viewBox="0 0 {WIDTH} {high}" width="{WIDTH}" height="{high}" '
        f'role="img">'
    ]
    for number, (name, draw, states) in enumerate(rows):
        parts.append(
            f'<text class="row" x="{LEFT - 8}" y="{number * ROW + 13}">{html.escape(name)}</text>'
        )
        parts += draw(number, states, last, place)
    for number, (router, ticks) in enumerate(sorted(routes.items()), len(rows)):
        parts.append(
            f'<text class="row" x="{LEFT - 8}" y="{number * ROW + 13}">{html.escape(router)} '
            f"routes change</text>"
        )
        for tick in sorted(ticks):
            parts.append(
                f'<line x1="{place(tick):.1f}" x2="{place(tick):.1f}" y1="{number * ROW + 3}" '
                f'y2="{number * ROW + 15}" stroke="#8a3ffc"><title>tick {tick}</title></line>'
            )
    base = (len(rows) + len(routes)) * ROW + 6
    parts.append(f'<line x1="{LEFT}" y1="{base}" x2="{WIDTH - RIGHT}" y2="{base}" stroke="#333"/>')
    for tick in range(0, last + 1, step_of(last)):
        parts.append(f'<text class="tick" x="{place(tick):.0f}" y="{base + 14}">{tick}</text>')
    return "\n".join([*parts, "</svg>"])


def legend():
    keys = (
        f'<span class="key"><i style="background:{colour}"></i>{state}</span>'
        for state, colour in STATES.items()
        if state != "Down"
    )
    return f'<p>{" ".join(keys)}</p>'
