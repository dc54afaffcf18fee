"""Builds the wheel of the package `ospf` with Python's own library alone, so that `pip install .`
needs no network. It holds libospf.so, which tools/library makes."""
import base64
import hashlib
import os
import subprocess
import zipfile

HERE = os.path.dirname(os.path.abspath(__file__))
TOP = os.path.dirname(os.path.dirname(HERE))
NAME, TAG = "ospf_area", "py3-none-linux_x86_64"
FILES = ("__init__.py", "_library.py", "py.typed")


def version():
    with open(os.path.join(TOP, "VERSION"), encoding="ascii") as file:
        return file.read().strip()


def library():
    """The shared library: one that the environment names, or that is made now."""
    path = os.environ.get("OSPF_LIBRARY") or os.path.join(TOP, "out", "libospf.so")
    if not os.environ.get("OSPF_LIBRARY"):
        subprocess.run([os.path.join(TOP, "tools", "library"), path], check=True)
    return path


def metadata():
    return (f"Metadata-Version: 2.1\nName: ospf-area\nVersion: {version()}\n"
            "Summary: An OSPFv2 area, computed from its LSAs by a proved library\n"
            "Requires-Python: >=3.11\n").encode()


def row(path, content):
    made = base64.urlsafe_b64encode(hashlib.sha256(content).digest()).rstrip(b"=").decode()
    return f"{path},sha256={made},{len(content)}\n"


def build_wheel(wheel_directory, config_settings=None, metadata_directory=None):
    """Writes the wheel; its name."""
    folder, files = f"{NAME}-{version()}.dist-info", {}
    for name in FILES:
        with open(os.path.join(HERE, "ospf", name), "rb") as file:
            files[f"ospf/{name}"] = file.read()
    with open(library(), "rb") as file:
        files["ospf/libospf.so"] = file.read()
    files[f"{folder}/METADATA"] = metadata()
    files[f"{folder}/WHEEL"] = (f"Wheel-Version: 1.0\nGenerator: backend\n"
                                f"Root-Is-Purelib: false\nTag: {TAG}\n").encode()
    rows = "".join(row(path, content) for path, content in files.items())
    files[f"{folder}/RECORD"] = f"{rows}{folder}/RECORD,,\n".encode()
    wheel = f"{NAME}-{version()}-{TAG}.whl"
    with zipfile.ZipFile(os.path.join(wheel_directory, wheel), "w", zipfile.ZIP_DEFLATED) as made:
        for path, content in files.items():
            made.writestr(path, content)
    return wheel
