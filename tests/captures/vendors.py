"""LSAs in the layouts of several vendors, by shown_as.py, come back as the same bytes: `read-shown`
runs these. Bits that a layout does not show come back too, or the LSA is left out by its name.
"""
import argparse
import glob
import itertools
import os
import struct
import sys

HERE = os.path.dirname(os.path.abspath(__file__))
TOP = os.path.dirname(os.path.dirname(HERE))
sys.path[:0] = [HERE, os.path.join(TOP, "tools")]
sys.dont_write_bytecode = True
import shown  # noqa: E402
import shown_as  # noqa: E402
import streams  # noqa: E402

# Flags of a router-LSA: B, E, V, Nt and H; and the Options that it may have without being shown: E,
# N/P, L, DC, O.
FLAGS, LIKELY = (0x01, 0x02, 0x04, 0x10, 0x80), 0x7A
def fail(name, *what):
    sys.exit(f"{name}: {' '.join(map(str, what))}")


def found_in(text, with_others=False):
    """The LSAs of a text, of all areas, and the reasons for those that are left out."""
    output = streams.AtEnd(argparse.Namespace(area=None, others="x" if with_others else None))
    for one in shown.shown_in(text.split("\n")):
        one.add_to(output)
    parts = [output.found, output.found.others] if with_others else [output.found]
    places = [newest for it in parts for newest in it.areas.values()]
    return [newest[key] for newest in places for key in sorted(newest)], dict(output.found.left)


def with_sum(text):
    """An LSA with its length and checksum (RFC 905, annex B), of its bytes in hexadecimal."""
    lsa = bytearray.fromhex(text)
    lsa[16:20] = b"\0\0" + struct.pack(">H", len(lsa))
    c0 = c1 = 0
    for byte in lsa[2:]:
        c0 = (c0 + byte) % 255
        c1 = (c1 + c0) % 255
    # The first byte of the checksum is at the place 14 behind the age.
    x = ((len(lsa) - 2 - 14 - 1) * c0 - c1) % 255
    lsa[16:18] = bytes([x or 255, (-c0 - x) % 255 or 255])
    return bytes(lsa)


def databases():
    """Each captured database: its LSAs."""
    files = glob.glob(f"{TOP}/examples/*.hex") + glob.glob(f"{HERE}/databases/*/*.hex")
    for name in sorted(files):
        with open(name, encoding="ascii") as file:
            yield name, [bytes.fromhex(line) for line in file]


def round_trips():
    """Captured databases in each layout; how many."""
    count = 0
    for name, lsas in databases():
        for layout, form in shown_as.FORMS.items():
            got, left = found_in(form(lsas))
            if sorted(got) != sorted(lsas) or left:
                fail(f"{name} as {layout} shows it", left, [it.hex() for it in got])
            count += 1
    return count


def other_types():
    """LSAs of types 3, 4 and 5 in each layout, with metrics of TOS where a layout has them."""
    lsas = [with_sum(text) for text in (
        "0001 0203 0a020000 01010101 80000001 0000 0000 ffffff00 0000000a",
        "0384 2003 0a028000 01010101 8000abcd 0000 0000 ffff8000 00ffffff",
        "0010 0204 09090909 01010101 80000003 0000 0000 00000000 00000011",
        "0020 2205 00000000 01010101 80000001 0000 0000 00000000 00000005 00000000 00000000",
        "0e10 0205 c0000200 03030303 7fffffff 0000 0000 ffffff00 80000014 0a000001 0000ffff")]
    router = with_sum("0001 2201 07070707 07070707 80000009 0000 0000 0500 0001"
                      "08080808 0a000001 01 02 000a 08 00 0014 10 00 ffff")
    for layout, form in shown_as.FORMS.items():
        got, left = found_in(form([*lsas, with_sum(router[:24].hex()[:44] + "0000")]), True)
        if sorted(got[1:]) != sorted(lsas) or left:
            fail(f"other types as {layout} shows them", left, [it.hex() for it in got])
        if "FRR" not in layout and found_in(form([router]))[0] != [router]:
            fail(f"metrics of TOS as {layout} shows them", found_in(form([router])))
        counted = {f"LSAs of type {kind}": count for kind, count in ((3, 2), (4, 1), (5, 2))}
        if found_in(form(lsas)) != ([], counted):
            fail(f"other types that are not wanted, as {layout} shows them", found_in(form(lsas)))


def open_bits():
    """Each value of Options and flags comes back, or the LSA is left out by its name."""
    network = "0001 {:02x}02 0a010003 03030303 80000004 0000 0000 ffffff00 01010101 02020202"
    router = "0001 {:02x}01 03030303 03030303 80000008 0000 0000 {:02x}00 0001" \
             "0a010003 0a010003 02 00 0015"
    sums = [sum(it) for size in range(6) for it in itertools.combinations(FLAGS, size)]
    for layout, options in itertools.product(("IOS", "EOS"), range(256)):
        flags, form = sums[options % len(sums)], shown_as.FORMS[layout]
        name = f"Options {options:02x}, flags {flags:02x} as {layout} shows them"
        is_likely = options & ~(LIKELY | (0x21 if layout == "IOS" else 0x7F)) == 0
        lsa = with_sum(router.format(options, flags))
        left = {"LSAs that do not have the length or checksum shown "
                "(router-LSA 3.3.3.3 of 3.3.3.3)": 1}
        if found_in(form([lsa])) != (([lsa], {}) if is_likely else ([], left)):
            fail(name, found_in(form([lsa])))
        lsa = with_sum(network.format(options))
        if found_in(form([lsa])) != ([lsa], {}):
            fail(name, found_in(form([lsa])))


def undecided():
    """Options that may be 00 or ff, of which BIRD shows nothing."""
    network = "0001 {}02 0a010003 03030303 80000004 0000 0000 ffffff00 01010101 02020202"
    for options in range(256):
        one = shown_as.Lsa(with_sum(network.format(f"{options:02x}")))
        text = ("BIRD 2.0.12 ready.\n\nArea 0.0.0.0\n\n Type   LS ID           Router          "
                f"Sequence   Age  Checksum\n 0002  {one.id:<15} {one.router:<15}  {one.number:08x} "
                f"{one.age:5}    {one.sum:04x}\n\narea 0.0.0.0\n\n\tnetwork 10.1.0.0/24\n"
                "\t\tdr 3.3.3.3\n\t\tdistance 7\n\t\trouter 1.1.1.1\n\t\trouter 2.2.2.2\n")
        got, left = found_in(text)
        name = "network-LSA 10.1.0.3 of 3.3.3.3"
        reason = f"LSAs whose Options the checksum cannot decide ({name}: 00 or ff)"
        wanted = ([], {reason: 1}) if options in (0, 255) else ([one.data], {})
        if (got, left) != wanted:
            fail(f"Options {options:02x} of BIRD", got, left)


def check():
    """All of it; how many texts came back."""
    count = round_trips()
    other_types()
    open_bits()
    undecided()
    return count
