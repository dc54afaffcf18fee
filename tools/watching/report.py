"""How a watcher says what it saw: as text for people, or as a JSON object a line (docs/schema,
watch-1.json). Both begin with the time of day."""
import datetime
import json

# Of the routes that are lost, and of single points of failure, text names so many.
MOST_NAMED = 10


def moment(time):
    """A time in seconds since 1970 as UTC, with milliseconds."""
    at = datetime.datetime.fromtimestamp(time, datetime.timezone.utc)
    return at.isoformat(timespec="milliseconds").replace("+00:00", "Z")


def as_json(event):
    """An event as a line of JSON."""
    value = {**event, "time": moment(event["time"])}
    return json.dumps(value, sort_keys=True, separators=(",", ":"))


def as_text(event):
    """An event as lines of text: those behind the first are indented."""
    first, *rest = TEXTS[event["event"]](event)
    return "\n".join([f"{moment(event['time'])} {first}", *(f"  {line}" for line in rest)])


def change(event):
    if event["change"] == "cost":
        where = f"{event['router']} {event['address']} to {event['to']}"
        return [f"cost {where}: {event['old']} -> {event['new']}"]
    return [f"{event['kind']} {event['name']} {event['change']}"]


def prefix(event):
    return [f"prefix {event['prefix']} {event['change']}"]


def lsa(event):
    name = f"{event['lsa']} {event['id']} {event['advertising_router']} {event['number']}"
    return [f"lsa {event['change']} {name} age {event['age']}"]


def start(event):
    size = f"{event['routers']} routers, {event['networks']} transit networks, {event['lsas']} LSAs"
    return [f"watching: {size}", *points("single point of failure", event["single_points"])]


def settled(event):
    routes = event["routes"]
    kinds = ", ".join(f"{routes[kind]} {kind}" for kind in
                      ("lost", "gained", "longer", "shorter", "rerouted"))
    lines = [f"settled: routes: {kinds}, at {routes['routers']} routers"]
    lost = {}
    for one in event["lost"]:
        lost.setdefault(one["prefix"], []).append(one["router"])
    named = sorted(lost)[:MOST_NAMED]
    lines += [f"lost: {it} at {len(lost[it])} routers" for it in named]
    lines += [f"lost: {len(lost) - len(named)} more prefixes"] * (len(lost) > len(named))
    lines += [f"stranded: {router}" for router in event["stranded"]["new"]]
    lines += [f"no longer stranded: {router}" for router in event["stranded"]["gone"]]
    lines += points("new single point of failure", event["single_points"]["new"])
    return lines + points("no single point of failure any more", event["single_points"]["gone"])


def points(what, found):
    named = found[:MOST_NAMED]
    lines = [f"{what}: {it['failure']}: {it['lost']} routes" for it in named]
    return lines + [f"{what}: {len(found) - len(named)} more"] * (len(found) > len(named))


def trouble(event):
    return [f"trouble: {event['text']}"]


TEXTS = {"change": change, "prefix": prefix, "lsa": lsa, "start": start, "settled": settled,
         "trouble": trouble}
