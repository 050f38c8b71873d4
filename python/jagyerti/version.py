"""The version of Jagyerti, and what it was built from."""
from __future__ import annotations

import importlib
import os
import subprocess
from typing import Optional, Tuple

PACKAGE = os.path.dirname(os.path.realpath(__file__))
CHECKOUT = os.path.dirname(os.path.dirname(PACKAGE))


def _read() -> Tuple[str, Optional[str]]:
    """Returns the version and the build that tools/install or tools/release wrote; in a checkout, the version alone."""
    try:
        build = importlib.import_module("jagyerti._build")
        return str(build.VERSION), str(build.BUILD)
    except ModuleNotFoundError:
        pass
    try:
        with open(os.path.join(CHECKOUT, "VERSION"), encoding="ascii") as file:
            return file.read().strip(), None
    except OSError:
        return "0", None


VERSION, _BUILD = _read()


def text() -> str:
    """Returns what `jagyerti --version` prints: the version, whether it is proved, and the commit."""
    return f"jagyerti {VERSION} ({_BUILD or _checkout()})"


def _checkout() -> str:
    words = ["git", "-C", CHECKOUT, "rev-parse", "--short=12", "HEAD"]
    try:
        asked = subprocess.run(words, stdout=subprocess.PIPE, stderr=subprocess.DEVNULL, check=False)
    except OSError:
        return "checkout"
    return f"checkout, commit {asked.stdout.decode().strip()}" if asked.returncode == 0 else "checkout"
