"""Builds a program of this folder over crates of the repository, in a repository of its own."""
import os
import shutil
import subprocess

HERE = os.path.dirname(os.path.abspath(__file__))
TOP = os.path.join(HERE, "..")


def crates_below(name):
    """The crates of the repository that a crate stands on, and itself, each after those that it
    stands on."""
    listed = {}
    for line in open(os.path.join(TOP, "crates.txt"), encoding="utf-8"):
        words, colon, libraries = line.split("#")[0].partition(":")
        if colon:
            listed[words.split()[0]] = libraries.split()
    found = []

    def find(crate):
        for it in listed[crate]:
            if it in listed and it not in found:
                find(it)
        found.append(crate)

    find(name)
    return found


def build(place, name, over, words):
    """The program of `name`.txt over a crate and all that this stands on. `words` let it end
    soon."""
    below = crates_below(over)
    for crate in below:
        shutil.copytree(os.path.join(TOP, "crates", crate), os.path.join(place, "crates", crate))
    shutil.copy(os.path.join(TOP, "HANDLES"), place)
    source = os.path.join(place, "crates", name, "src")
    os.makedirs(source)
    shutil.copy(os.path.join(HERE, name + ".txt"), os.path.join(source, "main.rt"))
    lines = [
        line
        for line in open(os.path.join(TOP, "crates.txt"))
        if line.split(":")[0].split()[0] in below
    ]
    with open(os.path.join(place, "crates.txt"), "w") as crates:
        crates.writelines(lines)
        crates.write(name + ": " + " ".join(below) + "\n")
    crate = os.path.join(place, "crates", name)
    subprocess.run(["rt", "run", "--"] + words, cwd=crate, check=True, capture_output=True)
    return os.path.join(crate, "out", name)
