"""An image of the program for containers, in one file: a layout of the Open Container Initiative
(OCI Image Format Specification 1.0), which `podman load`, `skopeo` and `ctr` read.

The image has the program and the C library that this machine runs it with, and nothing else: no
shell and no Python. Nothing is fetched. The same program, libraries and time give the same bytes.
"""
import datetime
import gzip
import hashlib
import io
import json
import os
import re
import subprocess
import tarfile

LAYER = "application/vnd.oci.image.layer.v1.tar+gzip"
CONFIG = "application/vnd.oci.image.config.v1+json"
MANIFEST = "application/vnd.oci.image.manifest.v1+json"
# A library in what `ldd` prints, found by its name or named by its path.
LIBRARY = re.compile(r"\s(?:\S+ => )?(/\S+) \(0x[0-9a-f]+\)")


def libraries(program):
    """The files that the program is linked with, by `ldd`; none if it is linked with nothing."""
    said = subprocess.run(["ldd", program], capture_output=True, text=True, check=False).stdout
    return sorted(set(LIBRARY.findall(said)))


def tar_of(files, moment):
    """A tar file of these contents by path, each with whether it can be run, and their folders."""
    made = io.BytesIO()
    with tarfile.open(fileobj=made, mode="w", format=tarfile.USTAR_FORMAT) as tar:
        seen = set()
        for path, (content, runs) in sorted(files.items()):
            parts = path.strip("/").split("/")
            for depth in range(1, len(parts)):
                folder = "/".join(parts[:depth])
                if folder not in seen:
                    seen.add(folder)
                    entry = tarfile.TarInfo(folder)
                    entry.type, entry.mode, entry.mtime = tarfile.DIRTYPE, 0o755, moment
                    tar.addfile(entry)
            entry = tarfile.TarInfo("/".join(parts))
            entry.size, entry.mtime = len(content), moment
            entry.mode = 0o755 if runs else 0o644
            tar.addfile(entry, io.BytesIO(content))
    return made.getvalue()


def sha256(content):
    return hashlib.sha256(content).hexdigest()


def described(kind, content, **more):
    """How a manifest refers to a blob."""
    return {"mediaType": kind, "digest": f"sha256:{sha256(content)}", "size": len(content), **more}


def image(program, version, moment):
    """The bytes of the image's file."""
    files = {}
    for path in [program, *libraries(program)]:
        with open(path, "rb") as file:
            files["usr/bin/ospfd" if path == program else path] = (file.read(), True)
    plain = tar_of(files, moment)
    layer = gzip.compress(plain, mtime=0)
    created = datetime.datetime.fromtimestamp(moment, datetime.timezone.utc)
    config = {
        "created": created.strftime("%Y-%m-%dT%H:%M:%SZ"),
        "architecture": "amd64",
        "os": "linux",
        "config": {"Entrypoint": ["/usr/bin/ospfd"], "WorkingDir": "/"},
        "rootfs": {"type": "layers", "diff_ids": [f"sha256:{sha256(plain)}"]},
    }
    config = json.dumps(config).encode()
    manifest = {
        "schemaVersion": 2,
        "mediaType": MANIFEST,
        "config": described(CONFIG, config),
        "layers": [described(LAYER, layer)],
    }
    manifest = json.dumps(manifest).encode()
    name = {"org.opencontainers.image.ref.name": f"ospfd:{version}"}
    index = {"schemaVersion": 2, "manifests": [described(MANIFEST, manifest, annotations=name)]}
    blobs = {f"blobs/sha256/{sha256(it)}": (it, False) for it in (layer, config, manifest)}
    blobs["index.json"] = (json.dumps(index).encode(), False)
    blobs["oci-layout"] = (b'{"imageLayoutVersion": "1.0.0"}', False)
    return tar_of(blobs, moment)


def write(path, program, version, moment):
    """Writes the image to a file."""
    with open(path, "wb") as file:
        file.write(image(os.path.realpath(program), version, moment))
