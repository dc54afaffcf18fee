"""Configurations of routers that hear each other over free UDP ports of this machine."""
import contextlib
import socket
import threading

# The ports that were given already: tests that run side by side get none of another's.
GIVEN, GIVING = set(), threading.Lock()


def free_ports(count):
    """So many UDP ports that nobody listens to, none of which was given before."""
    ports = []
    with GIVING, contextlib.ExitStack() as opened:
        while len(ports) < count:
            one = opened.enter_context(socket.socket(socket.AF_INET, socket.SOCK_DGRAM))
            one.bind(("127.0.0.1", 0))
            if one.getsockname()[1] not in GIVEN:
                ports.append(one.getsockname()[1])
                GIVEN.add(ports[-1])
    return ports


def interface(kind, address, cost, port=0, peers=(), more=""):
    return (
        f'[[interface]]\nkind = "{kind}"\naddress = "{address}"\ncost = {cost}\nport = '
        f'{port}\npeers = {list(peers)}\n{more}'
    )


def config(router, *interfaces):
    return f'router_id = "{router}"\narea = "0.0.0.0"\n' + "".join(interfaces)


def two(ports):
    """Two routers on a line, with a network behind the second."""
    first = config("1.1.1.1", interface("point-to-point", "10.0.0.1/30", 10, ports[0], [ports[1]]))
    second = config(
        "2.2.2.2",
        interface("point-to-point", "10.0.0.2/30", 10, ports[1], [ports[0]]),
        interface("broadcast", "192.168.2.1/24", 5, ports[2]),
    )
    return [first, second]


def lan(ports):
    """Three routers on one network, each sending to both others."""
    made = []
    for number in range(3):
        peers = [port for port in ports if port != ports[number]]
        priority = 0 if number == 2 else 1
        made.append(
            config(
                ".".join(4 * [str(number + 1)]),
                interface(
                    "broadcast",
                    f"10.1.0.{number + 1}/24",
                    10,
                    ports[number],
                    peers,
                    f"priority = {priority}\n",
                ),
            )
        )
    return made
