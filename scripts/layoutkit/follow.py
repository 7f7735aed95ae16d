"""Whether the stated loops are where the code has them, by `scripts/loops`."""
from __future__ import annotations

import re
import sys
from pathlib import Path

from .calling import call

LOOPS = Path(__file__).resolve().parents[1] / "loops"
HEADER = re.compile(r"^(\s*\[\[\s*task\.loop\s*\]\]).*$", re.MULTILINE)


def differences(text: str, place: Path) -> list[str]:
    """A line for each loop that `scripts/loops` finds otherwise than a set states it. Comments at tables are left out, since
    these have the addresses of heads, which move."""
    path = place / "loops.toml"
    path.write_text(HEADER.sub(r"\1", text))
    done = call([sys.executable, str(LOOPS), "--check", str(path)])
    return lines_of(done.stdout + done.stderr) if done.returncode else []


def lines_of(output: bytes) -> list[str]:
    """The lines of an output."""
    return output.decode(errors="replace").splitlines()


def with_file(text: str, file: str, path: str) -> str:
    """The text of a set with a file in the place of another; its comments stay."""
    return re.sub(rf"^(\s*file\s*=\s*)([\"']){re.escape(file)}\2", lambda found: f'{found[1]}"{path}"', text, flags=re.MULTILINE)
