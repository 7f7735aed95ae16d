"""Calls of other programs, which a Ctrl-C at the terminal does not end."""
from __future__ import annotations

import subprocess

from commonkit.calls import Trouble

MOST_SECONDS = 120


def call(words: list[str]) -> subprocess.CompletedProcess[bytes]:
    """Runs a command; `Trouble` if it does not start or does not end."""
    try:
        return subprocess.run(words, stdin=subprocess.DEVNULL, capture_output=True, timeout=MOST_SECONDS, process_group=0,
                              check=False)
    except subprocess.TimeoutExpired as error:
        raise Trouble(f"{words[0]} does not end in {MOST_SECONDS} seconds") from error
    except (OSError, ValueError) as error:
        raise Trouble(f"{words[0]} does not start: {getattr(error, 'strerror', None) or error}") from error
