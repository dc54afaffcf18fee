"""The topologies of FRR's topotests that are JSON: configurations for their routers.

The suite makes the configurations of these as it runs. Here they are made of the same facts: who is
joined to whom, the area, the timers, priorities and network types of each interface, and the Router
IDs. Subnets are counted up from 10.0.0.0/24, in the order of the names.
"""
import glob
import json
import os

# The keys of a link, as FRR's commands call them.
COMMANDS = {"area": "area", "hello_interval": "hello-interval", "dead_interval": "dead-interval",
            "priority": "priority", "network": "network", "cost": "cost"}


def ends_of(facts):
    """The ends of each link and switch, in order: the router, the device, what OSPF has there."""
    found = {}
    for name, router in facts["routers"].items():
        for link, it in router["links"].items():
            other, _, suffix = link.partition("-")
            if other in facts["routers"]:
                key = "-".join((*sorted((name, other)), suffix))
                found.setdefault(key, []).append((name, link, it.get("ospf")))
    for switch, it in facts.get("switches", {}).items():
        found[f"switch {switch}"] = [
            (name, switch, link.get("ospf")) for name, link in it["links"].items()]
    return [sorted(ends, key=lambda end: end[:2]) for _, ends in sorted(found.items())]


def configurations(facts):
    """Of each router zebra.conf and ospfd.conf."""
    found = {name: {"zebra": "", "ospfd": ""} for name in facts["routers"]}
    for number, ends in enumerate(ends_of(facts)):
        for place, (name, link, ospf) in enumerate(ends, 1):
            head = f"interface {name}-{link}\n"
            found[name]["zebra"] += f"{head} ip address 10.0.{number}.{place}/24\n"
            if ospf:
                lines = (f" ip ospf {COMMANDS[key]} {value}\n" for key, value in ospf.items())
                found[name]["ospfd"] += head + "".join(lines)
    for name, router in facts["routers"].items():
        found[name]["ospfd"] += f"router ospf\n ospf router-id {router['ospf']['router_id']}\n"
    return found


def write(suite, taken):
    """Writes the configurations of the topologies that are taken as folders of the suite; the names
    of the others."""
    others = set()
    for path in glob.glob(os.path.join(suite, "ospf_*", "*ospf*.json")):
        name = os.path.basename(path).removesuffix(".json").removeprefix("test_")
        if name not in taken:
            others.add(name)
            continue
        with open(path, encoding="utf-8") as file:
            facts = json.load(file)
        for router, texts in configurations(facts).items():
            folder = os.path.join(suite, name, router)
            os.makedirs(folder, exist_ok=True)
            for kind, text in texts.items():
                with open(os.path.join(folder, f"{kind}.conf"), "w", encoding="ascii") as file:
                    file.write(text)
    return others
