"""What stops the producer."""
from __future__ import annotations


class Unfit(Exception):
    """Why no certificate can be made of the input."""


class NoWindow(Exception):
    """No window of a task ends by its deadline; the text is the task's name."""
