"""Files with faults, and what is printed of them for GitHub: `annotations` compares them."""
GOOD = """router_id = "1.1.1.1"
area = "0.0.0.0"

[[interface]]
kind = "point-to-point"
address = "10.0.0.1/30"
cost = 10
"""
OTHER = GOOD.replace("1.1.1.1", "2.2.2.2").replace("10.0.0.1", "10.0.0.2")
FILES = {
    "good.toml": GOOD,
    "hello.toml": OTHER + "hello = 5\n",
    "bad.toml": GOOD.replace("cost = 10", "  cost = 0"),
    "odd.toml": GOOD.replace("area", "areas"),
    "half.toml": "router_id = = 1\n",
    "stub.toml": OTHER
    + '\n[[interface]]\nkind = "broadcast"\naddress = "192.168.2.1/24"\ncost = 5\n',
    # Its second link is its third interface.
    "passive.toml": OTHER
    + '\n[[interface]]\nkind = "broadcast"\naddress = "192.168.3.1/24"\ncost = 5\npassive = true\n'
    + '\n[[interface]]\nkind = "broadcast"\naddress = "192.168.2.1/24"\ncost = 5\n',
    "wrong.toml": GOOD.replace("cost = 10", "cost = 10\npassive = 1"),
}
# What is printed for GitHub, up to the text, of which the beginning stands here.
A5 = (
    "error file=hello.toml,line=8,col=9,title=A5 Hello::interface 0: hello 5, good.toml: "
    "interface 0: hello 10; "
)
A18 = (
    "error file=hello.toml,line=1,col=13,title=A18 Partitioned::router_id 2.2.2.2, good.toml: "
    "router_id 1.1.1.1; "
)
C5 = (
    "error file=bad.toml,line=7,col=10,title=C5 ZeroCost::interface 0: cost: 1 to 65535 wanted, 0 "
    "found"
)
C1 = "error file=half.toml,line=1,col=13,title=C1 NotToml::line 1: not valid TOML"
C2 = "error file=odd.toml,line=1,col=1,title=C2 Missing::area: "
C8 = "error file=odd.toml,line=2,col=1,title=C8 Unknown::areas: "
A13 = (
    "notice file=stub.toml,line=11,col=11,title=A13 NoNeighbor::interface 1: address "
    "192.168.2.1/24; "
)
BEHIND = A13.replace("stub.toml,line=11", "passive.toml,line=17")
C3 = (
    "error file=wrong.toml,line=8,col=11,title=C3 Type::interface 0: passive: true or false "
    "wanted, 1 found"
)
CASES = [
    (["--area", "good.toml", "passive.toml"], [BEHIND], 0),
    (["wrong.toml"], [C3], 1),
    (["--area", "good.toml", "hello.toml"], [A5, A18], 1),
    (["bad.toml", "half.toml"], [C5, C1], 1),
    (["--area", "good.toml", "odd.toml"], [C2, C8], 1),
    (["--area", "good.toml", "stub.toml"], [A13], 0),
    (["good.toml", "hello.toml"], [], 0),
]
