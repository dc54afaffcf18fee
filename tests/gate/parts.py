"""The parts of the tests: a part is the words of a command, run at the top of the repository, and
passes where its status is 0.

tests/run runs those that need no proved program, tests/gate/all the others, on the program that it
has proved.
"""
import os

TOP = os.path.dirname(os.path.dirname(os.path.dirname(os.path.abspath(__file__))))
UNITS = ["tests/unit/units"]
# These start no program of ours.
WITHOUT_PROGRAM = [
    ["tests/gate/english"],
    ["tests/gate/laid-out"],
    ["tests/gate/layout"],
    ["tests/gate/unused"],
    ["tests/gate/scripts"],
    ["tests/gate/quoted"],
    ["tests/edits", "--check"],
    ["tools/promise", "--check", "docs/promises"],
]
WITHOUT_PROGRAM += [["tools/trust", "--check", "docs/TRUST.md"], ["tests/gate/pages"]]
WITHOUT_PROGRAM += [["tests/gate/lessons"]]
WITHOUT_PROGRAM += [["tests/gate/stand-ins"], ["tests/peers/bridge"], ["tests/peers/guarded"]]
WITHOUT_PROGRAM += [["tests/web/heap"]]
# The longest first, so that the others run beside them.
OF_PROGRAM = [
    "captures/compare-spec",
    "captures/compare-failures",
    "captures/compare-changes",
    "simulations/claims",
    "simulations/simulate",
    "captures/compare-inspect",
]
OF_PROGRAM += [
    "captures/read-captures",
    "captures/page",
    "captures/click-page",
    "simulations/ladder",
    "simulations/report",
]
OF_PROGRAM += [
    "captures/compare-captures",
    "captures/read-shown",
    "captures/import",
    "captures/annotations",
    "captures/json-schemas",
    "captures/names",
    "gate/console",
    "gate/image",
    "gate/shown",
    "gate/streams",
    "peers/failures",
    "peers/changes",
    "peers/topologies",
]
# These look at the clock while routers run, so nothing else runs beside them.
ALONE = [["tests/peers/run"], ["tests/peers/service"], ["tests/peers/watch"]]
# Tests that are proved, in which each allocation is refused in turn.
REFUSED_IN_TESTS = [
    "publishes::refused_publish_changes_nothing",
    "drives::want_of_memory_ends_as_stated",
]


def of_program():
    """Those that run the program, proved or not, and may run side by side."""
    examples = sorted(
        f"examples/{name}"
        for name in os.listdir(os.path.join(TOP, "examples"))
        if name.endswith(".toml")
    )
    return [*([f"tests/{name}"] for name in OF_PROGRAM), ["./ospfd", "check", *examples]]


def unproved():
    """All that tests/run runs."""
    return [UNITS, *WITHOUT_PROGRAM, *of_program(), *ALONE]


def of_proved():
    """Those that need the proved program."""
    tests = [
        ["tests/gate/refuse-allocations-in-tests", "ospf_drive_tests", name]
        for name in REFUSED_IN_TESTS
    ]
    library = [["tests/web/bindings"], ["tests/web/playground"]]
    return [["tests/gate/package"], ["tests/gate/refuse-allocations"], *library, *tests]
