"""Prints what changes in an area when each of its links, networks and routers fails.

    python3 example.py area.hex
"""
import sys

import ospf


def main() -> None:
    with open(sys.argv[1], encoding="ascii") as file:
        lsas = file.read()
    for name in ospf.elements(lsas):
        after = ospf.edit(lsas, down=[name]).text
        print(name, ospf.diff(lsas, after).text.splitlines()[-1])


main()
