"""Makes the wheel (PEP 517): the package, the library's shared object and the
command `etglavino`, which `make` builds. Whoever installs it needs none of what
it is made with. Takes Python 3.11 or later."""

from __future__ import annotations

import base64
import hashlib
import subprocess
import sysconfig
import tomllib
import zipfile
from pathlib import Path
from typing import Any

PACKAGE = Path(__file__).resolve().parents[1]
ROOT = PACKAGE.parent


def build_wheel(
    wheel_directory: str, config_settings: Any = None, metadata_directory: Any = None
) -> str:
    """Makes the wheel in a folder; its name."""
    subprocess.run(["make", "-s", "--no-print-directory", "-C", str(ROOT)], check=True)
    project = tomllib.loads((PACKAGE / "pyproject.toml").read_text())["project"]
    name = f"{project['name']}-{project['version']}"
    tag = "py3-none-" + sysconfig.get_platform().replace("-", "_").replace(".", "_")
    wheel = f"{name}-{tag}.whl"
    files = dict(_files(project, name, tag))
    record = f"{name}.dist-info/RECORD"
    lines = [f"{path},sha256={_digest(octets)},{len(octets)}" for path, octets in files.items()]
    files[record] = "".join(f"{line}\n" for line in [*lines, f"{record},,"]).encode()
    with zipfile.ZipFile(Path(wheel_directory, wheel), "w", zipfile.ZIP_DEFLATED) as archive:
        for path, octets in files.items():
            entry = zipfile.ZipInfo(path)  # Of one date, so that equal files make equal wheels.
            entry.compress_type = zipfile.ZIP_DEFLATED
            entry.external_attr = (0o100755 if "/scripts/" in path else 0o100644) << 16
            archive.writestr(entry, octets)
    return wheel


def build_sdist(sdist_directory: str, config_settings: Any = None) -> str:
    """There is none: the library is made from the whole repository."""
    raise NotImplementedError("wheels are made from the repository")


def _files(project: dict[str, Any], name: str, tag: str) -> Any:
    for path in sorted((PACKAGE / "etglavino").iterdir()):
        if path.suffix in (".py", ".typed"):
            yield f"etglavino/{path.name}", path.read_bytes()
    shared = ROOT / f"target/make/libetglavino.so.{project['version']}"
    yield "etglavino/libetglavino.so", shared.read_bytes()
    yield f"{name}.data/scripts/etglavino", (ROOT / "tool/target/release/etglavino").read_bytes()
    yield f"{name}.dist-info/METADATA", _metadata(project).encode()
    made_by = "Wheel-Version: 1.0\nGenerator: etglavino\nRoot-Is-Purelib: false\n"
    yield f"{name}.dist-info/WHEEL", f"{made_by}Tag: {tag}\n".encode()
    yield f"{name}.dist-info/LICENSE", (ROOT / "LICENSE").read_bytes()


def _metadata(project: dict[str, Any]) -> str:
    lines = [
        "Metadata-Version: 2.1",
        f"Name: {project['name']}",
        f"Version: {project['version']}",
        f"Summary: {project['description']}",
        f"License: {project['license']['text']}",
        f"Requires-Python: {project['requires-python']}",
        *(f"Classifier: {kind}" for kind in project["classifiers"]),
    ]
    return "".join(f"{line}\n" for line in lines)


def _digest(octets: bytes) -> str:
    digest = hashlib.sha256(octets).digest()
    return base64.urlsafe_b64encode(digest).decode().rstrip("=")
