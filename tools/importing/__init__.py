"""What `import-config` reads: the dialects, by their names."""
from . import bird, frr, ios, junos

DIALECTS = {"frr": frr, "bird": bird, "ios": ios, "junos": junos}
