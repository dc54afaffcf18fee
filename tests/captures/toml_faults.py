"""Configurations with faults, and where those stand: for `annotations`.

What is between `<CODE:` and `>` is at fault, by that code; an empty mark is a place. The texts are
TOML of all kinds: comments, strings in each kind of quotes, arrays over several lines, tables
within a line, dotted keys, signs that take more than a byte.
"""
import re

MARK = re.compile(r"<([A-Z]\w*):([^<>]*)>")


def marked(text):
    """A text without its marks, and of each mark its code, its line, and its columns."""
    found, plain, at = [], "", 0
    for it in MARK.finditer(text):
        plain += text[at : it.start()]
        line, column = plain.count("\n") + 1, len(plain) - plain.rfind("\n")
        found.append((it[1], (line, column, column + len(it[2]))))
        plain, at = plain + it[2], it.end()
    return plain + text[at:], found


TOP = 'router_id = "{0}.{0}.{0}.{0}"\narea = "0.0.0.0"\n'
LINK = '[[interface]]\nkind = "{1}"\naddress = "10.0.0.{0}/{2}"\ncost = 10\n'


def router(number, more="", kind="point-to-point", length=30):
    """A configuration, with more keys of its interface."""
    return (TOP + LINK).format(number, kind, length) + more


ALL, AREA = [], ["--area"]
ALONE = [
    ("C1, of a sign", "router_id = <C1:>= 1\n"),
    ("C1, of a line", '# é\nrouter_id = "1.1.1.1"\nrouter_id = "1.1.1.1"<C1:>\n'),
    ("C1, of the end", "router_id = <C1:>"),
    ("C2, at the top", "<C2:>" + router(1).replace("area", "# area")),
    ("C2, no interface", "<C2:>" + TOP.format(1)),
    ("C2, in an interface", router(1).replace("cost = 10\n", "").replace(
        "[[interface]]", "<C2:[[interface]]>")),
    ("C2, in a host", router(1) + '  <C2:[[ host ]]> # é\n  address = "192.0.2.1"\n'),
    ("C2, in a table within a line",
     TOP.format(1) + 'interface = [\n  # one\n  <C2:{kind = "broadcast", cost = 5}>,\n]\n'),
    ("C3, quotes", router(1, "mtu = <C3:'1500'> # é\n")),
    ("C3, within a line", TOP.format(1) + 'interface = [{ kind="broadcast", address = "10.0.0.1/24"'
     ', cost = 1, hello = <C3:"5"> }]\n'),
    ("C3, no array", TOP.format(1) + "<C3:[interface]>\ncost = 1\n"),
    ("C4, at the top", router(1).replace('"1.1.1.1"', "<C4:'0.0.0.0'>")),
    ("C4, each", router(1, 'hello = <C4:70_000>\ndead = <C7:100>\nmtu = <C4:0x20>\n')
     + LINK.format(5, "broadcast", 30).replace('"broadcast"', '<C4:"nbma">').replace(
         '"10.0.0.5/30"', '<C4:"10.0.0.4/30">')),
    ("C4, a port", router(1, "peers = [\n  17001, # é\n  <C4:80>,\n]\n")),
    ("C4, too many ports", router(1, f"peers = [{', '.join(['17001'] * 32)}, <C4:17002>]\n")),
    ("C4, too many hosts", router(1) + "".join(
        f'{"[[host]]" if at < 32 else "<C4:[[host]]>"}\naddress = "192.0.2.{at + 1}"\ncost = 0\n'
        for at in range(33))),
    ("C5", router(1, "").replace("cost = 10", "cost = <C5:0>")),
    ("C6, of an interface", router(1) + LINK.format(2, "broadcast", 30).replace(
        '"10.0.0.2/30"', '<C6:"""10.0.0.2/30""">')),
    ("C6, of a host", router(1) + '[[host]]\naddress = <C6:"10.0.0.1">\ncost = 0\n'),
    ("C7, of both", router(1, "dead = <C7:5>\nhello = 6\n")),
    ("C7, of one", router(1, "hello = <C7:40>\n")),
    ("C8, at the top", "<C8:colour> = 1\n<C8:'odd key'> = 2\n" + router(1)),
    ("C8, in an interface", router(1, '<C8:co-lour> = { a = 1, b = [2, "]"] }\n')),
    ("C8, a table", router(1) + "<C8:[more]>\nx = 1\n"),
    ("C8, a dotted key", "<C8:>more.x = 1\n" + router(1)),
    ("C3, a number for all", TOP.format(1) + 'interface = <C3:5>\n'),
]


def two(here, other="", **how):
    """Two routers of a network, of which the second has more keys."""
    return [router(1, other, **how), router(2, here, **how)]


BOTH = [
    ("A1", [router(1), router(1).replace("10.0.0.1", "10.0.0.2").replace(
        '"1.1.1.1"', '<A1:"1.1.1.1">')]),
    ("A2", [router(1), router(2).replace('"10.0.0.2/30"', '<A2:"10.0.0.1/30">')]),
    ("A3", [router(1), router(2).replace('"0.0.0.0"', '<A3:"0.0.0.7">')]),
    ("A4", [router(1), router(2).replace(
        '"point-to-point"', '<A4:"broadcast">')]),
    ("A5", two("hello = <A5:5>\n")),
    ("A5, not written", [router(1, "hello = 5\n"), router(2).replace(
        "[[interface]]", "<A5:[[interface]]>")]),
    ("A6", two("dead = <A6:0b101001>\n")),
    ("A7", two("mtu = <A7:1400>\n")),
    ("A8", [router(1).replace('"10.0.0.1/30"', '<A8:"10.0.0.1/30">'), router(2, length=24)]),
    ("A9", [router(1, length=29).replace('"10.0.0.1/29"', '<A9:"10.0.0.1/29">'),
            router(2, length=29), router(3, length=29)]),
    ("A10", two("priority = 0\n", "priority = <A10:0>\n", kind="broadcast", length=24)),
    ("A11", two("port = 17002\n", "port = <A11:17001>\npeers = [17003, 17002]\n")),
    ("A12", [router(1), router(2).replace("cost = 10", "cost = <A12:11>")]),
    ("A13", [router(1).replace('"10.0.0.1/30"', '<A13:"10.0.0.1/30">')]),
    ("A14", two("transmit_delay = <A14:1000>\n", "transmit_delay = 1000\n")),
    ("A15", two("port = <A15:17001>\n", "port = 17001\n")),
    ("A16", [router(1, "port = <A16:17001>\npeers = [17002]\n"),
             router(2, "port = 17002\n").replace("10.0.0.2", "10.0.1.2")]),
    ("A17", two("", "port = 17001\npeers = [ <A17:17_009> ]\n")),
    ("A18", [router(1), router(2).replace("10.0.0.2", "10.0.1.2").replace(
        '"2.2.2.2"', '<A18:"2.2.2.2">')]),
    ("A19", two("port = <A19:17002>\n", "port = 17001\n")),
    ("A20", [router(at, f"priority = {'<A20:1>' if at == 1 else 0}\n", "broadcast", 24)
             for at in (1, 2, 3)]),
    ("a warning", [router(1, "transmit_delay = <Warning:1000>\n"), router(2)]),
    ("a warning, of what is not written", ['other_lsas = "pass over"\n' + router(
        1, kind="broadcast").replace("[[interface]]", "<Warning:[[interface]]>"),
        router(2, kind="broadcast")]),
]
CASES = [(name, [text], ALL) for name, text in ALONE]
CASES += [(name, texts, AREA) for name, texts in BOTH]
