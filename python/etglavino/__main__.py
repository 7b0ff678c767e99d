"""`python3 -m etglavino`: the command `etglavino`, with the same arguments."""

from __future__ import annotations

import os
import shutil
import sys
import sysconfig
from pathlib import Path

from ._library import BUNDLED, ROOT


def command() -> str | None:
    """Where the command is: beside this Python where a wheel was installed, in
    this repository, or wherever a shell would find it."""
    installed = Path(sysconfig.get_path("scripts"), "etglavino")
    built = ROOT / "tool/target/release/etglavino"
    path = installed if BUNDLED.is_file() else built
    return str(path) if path.is_file() else shutil.which("etglavino")


def main() -> int:
    """Becomes the command, if there is one."""
    path = command()
    if path is None:
        print("etglavino: the command is not there: `make` builds it", file=sys.stderr)
        return 2
    os.execv(path, ["etglavino", *sys.argv[1:]])


if __name__ == "__main__":
    sys.exit(main())
