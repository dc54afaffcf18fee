"""Configurations that `tools/import-config` reads: `import` runs these.

Those of FRR have the form of its own topotests, with some of their numbers and addresses; all were
written by hand, after the grammars and public documentation. What is wanted was written by hand
too: a line for each interface, and the whole report.
"""
from . import bird, frr_areas, frr_settings, ios, junos
from .frr_areas import AREAS, ECMP, RANGE

__all__ = ["AREAS", "CASES", "ECMP", "RANGE"]

CASES = [*frr_areas.CASES, *frr_settings.CASES, *bird.CASES, *ios.CASES, *junos.CASES]
