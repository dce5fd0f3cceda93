"""Tests of the driver. Tests that need a missing tool are skipped with a message."""

import os
import shutil
import subprocess
import sys
from pathlib import Path

DRIVER = Path(__file__).resolve().parents[1]
TOP = DRIVER.parent
PROGRAM = TOP / "crates" / "peep" / "out" / "peep"
CORE = ["-mcpu=cortex-m0", "-mthumb"]
sys.path.insert(0, str(DRIVER))


def lacks(*tools: str) -> str | None:
    """The message if one of these is missing, otherwise None."""
    missing = [tool for tool in tools if shutil.which(tool) is None]
    return f"no {missing[0]} here" if missing else None


def lacks_program() -> str | None:
    """The message if the program isn't built, otherwise None. PEEP names another program."""
    return None if program().is_file() else "no proved program here: ./peep builds it"


def program() -> Path:
    """The program that the tests run."""
    return Path(os.environ.get("PEEP", PROGRAM))


def run(*words: str | Path, folder: Path, **variables: str) -> subprocess.CompletedProcess[str]:
    """Runs a command in a folder. Of the settings' variables only those given are set."""
    environment = {name: value for name, value in os.environ.items() if not name.startswith("PEEP")}
    return subprocess.run([*map(str, words)], cwd=folder, env={**environment, **variables}, capture_output=True, text=True)
