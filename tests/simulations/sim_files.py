"""The files that a simulation writes: from a console as from a script, and none that it reads."""
import os
import subprocess
import tempfile

from simulated import EXAMPLES, bytes_of


def written_by(program, folder, script, place, given):
    """What a simulation of the example of two routers writes: the status, the streams and the
    files."""
    names = [os.path.join(place, name) for name in ("pcap", "dot", "log")]
    files = [word for name in names for word in (f"--{os.path.basename(name)}", name)]
    done = subprocess.run(
        [program, "sim", *files, script, "1.toml", "2.toml"],
        cwd=folder,
        input=given,
        capture_output=True,
        timeout=600,
        check=False,
    )
    return done.returncode, done.stdout, done.stderr, [bytes_of(name) for name in names]


def miswritten(program):
    """What is wrong with what a console writes beside a script of the same lines, in lines."""
    folder = os.path.join(EXAMPLES, "two-routers-up")
    with open(os.path.join(folder, "script"), "rb") as file:
        lines = file.read()
    with tempfile.TemporaryDirectory() as place:
        by_script = written_by(program, folder, "script", place, b"")
        by_console = written_by(program, folder, "-", place, lines)
    told = (
        []
        if by_script[0] == 0 and all(by_script[3])
        else [
            f"status {by_script[0]}: {by_script[2]}; bytes of files: "
            f"{[len(it) for it in by_script[3]]}"
        ]
    )
    return told + ([] if by_console == by_script else [f"{by_console}, and not {by_script}"])


def overwritten(program):
    """What is wrong where a file that is to be written is one that is read, or another that is
    written, in lines: nothing may be lost."""
    told = []
    with tempfile.TemporaryDirectory() as place:
        for name in ("script", "1.toml", "2.toml"):
            with open(os.path.join(EXAMPLES, "two-routers-up", name), "rb") as file, open(
                os.path.join(place, name), "wb"
            ) as copy:
                copy.write(file.read())
        before = {
            name: os.stat(os.path.join(place, name)).st_mtime_ns for name in os.listdir(place)
        }
        sim, run = ["script", "1.toml", "2.toml"], ["1", "1.toml", "2.toml"]
        for words, name in [
            (["sim", "--dot", "script", *sim], "script"),
            (["sim", "--pcap", "2.toml", *sim], "2.toml"),
            (["sim", "--log", "1.toml", *sim], "1.toml"),
            (["sim", "--log", "new", "--pcap", "new", *sim], "new"),
            (["run", "--pcap", "1.toml", *run], "1.toml"),
            (["run", "--log", "new", "--pcap", "new", *run], "new"),
        ]:
            done = subprocess.run(
                [program, *words], cwd=place, capture_output=True, timeout=60, check=False
            )
            if (done.returncode, done.stdout, done.stderr) != (
                2,
                b"",
                f"{name}: would be overwritten\n".encode(),
            ):
                told.append(f"{words}: {done}")
        after = {name: os.stat(os.path.join(place, name)).st_mtime_ns for name in os.listdir(place)}
    return told + ([] if before == after else [f"{after}, and not {before}"])
