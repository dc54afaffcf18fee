"""What tools/watch prints as JSON of an area that changes step by step, for `json-schemas`."""
import os
import socket
import subprocess

import area
import printed_areas

HERE = os.path.dirname(os.path.abspath(__file__))
WATCH = os.path.join(os.path.dirname(os.path.dirname(HERE)), "tools", "watch")


def router_lsa(router, *links):
    return printed_areas.router_lsa(router, 0, *links)


def journal_line(event, lsa):
    """A line of a journal of LSAs."""
    kind = {1: "router", 2: "network"}[lsa[3]]
    ends = " ".join(socket.inet_ntoa(lsa[at:at + 4]) for at in (4, 8))
    return f"7 9.9.9.9 {event} {kind} {ends} {lsa[12:16].hex()} {lsa[16:18].hex()} 1 {lsa.hex()}"


def watched_steps():
    """Lines of a journal of LSAs, each step up to the next rest: a line of three routers, and a LAN
    of the first with a fourth. The third is cut off and back, then the LAN, then the fourth router;
    last a cost changes."""
    def first(lan=True):
        links = [(area.POINT_TO_POINT, "2.2.2.2", "10.0.0.1", 10)]
        links += [(area.TRANSIT, "10.1.0.1", "10.1.0.1", 10)] * lan
        return router_lsa("1.1.1.1", *links)

    def second(third=True, cost=10):
        links = [(area.POINT_TO_POINT, "1.1.1.1", "10.0.0.2", cost)]
        links += [(area.POINT_TO_POINT, "3.3.3.3", "10.0.1.2", 10)] * third
        return router_lsa("2.2.2.2", *links, (area.STUB, "10.2.0.0", "255.255.0.0", 1))

    def third(second_too=True):
        links = [(area.POINT_TO_POINT, "2.2.2.2", "10.0.1.3", 10)] * second_too
        return router_lsa("3.3.3.3", *links, (area.STUB, "10.3.0.0", "255.255.0.0", 1))

    def fourth(lan=True):
        links = [(area.TRANSIT, "10.1.0.1", "10.1.0.4", 10)] * lan
        return router_lsa("4.4.4.4", *links, (area.STUB, "10.4.0.0", "255.255.0.0", 1))

    network = printed_areas.network_lsa("10.1.0.1", "1.1.1.1", "1.1.1.1", "4.4.4.4")
    yield [journal_line("installed", it) for it in (first(), second(), third(), fourth(), network)]
    yield ["junk", *(journal_line("installed", it) for it in (second(False), third(False)))]
    yield [journal_line("installed", it) for it in (second(), third())]
    yield [journal_line("installed", first(False)), journal_line("flushed", network)]
    yield [journal_line("installed", first()), journal_line("installed", network)]
    yield [journal_line("aged-out", fourth())]
    yield [journal_line("installed", fourth()), journal_line("refreshed", third())]
    yield [journal_line("installed", second(cost=20))]


def watch(printed):
    """What tools/watch tells of an area that changes, step by step."""
    words = [WATCH, "--json", "--lsas", "--settle", "0.2"]
    pipes = {"stdin": subprocess.PIPE, "stdout": subprocess.PIPE, "text": True}
    with subprocess.Popen([*words, "--ospfd", printed.program, "-"], **pipes) as child:
        for step in watched_steps():
            child.stdin.write("".join(f"{line}\n" for line in step))
            child.stdin.flush()
            for line in child.stdout:
                if printed.keep("watch-1", "tools/watch --json", line)["event"] in (
                        "start", "settled"):
                    break
        child.stdin.close()
    printed.commands += 1
