"""What a script says of a set: errors, warnings and notes, each once, with all that it is about."""
from __future__ import annotations

import sys
from dataclasses import dataclass, field

ERROR, WARNING, NOTE = "error", "warning", "note"
GRADES = (ERROR, WARNING, NOTE)


@dataclass
class Report:
    """Messages by grade and text, each with its subjects in order."""

    found: dict[tuple[str, str], list[str]] = field(default_factory=dict)

    def add(self, grade: str, subject: str, text: str) -> None:
        """Adds a message, or another subject of it."""
        subjects = self.found.setdefault((grade, text), [])
        if subject not in subjects:
            subjects.append(subject)

    def error(self, subject: str, text: str) -> None:
        """Adds what makes the set unfit."""
        self.add(ERROR, subject, text)

    def warn(self, subject: str, text: str) -> None:
        """Adds what is to be looked at."""
        self.add(WARNING, subject, text)

    def note(self, subject: str, text: str) -> None:
        """Adds what is good to know."""
        self.add(NOTE, subject, text)

    def has_errors(self) -> bool:
        """Whether the set is unfit."""
        return any(grade == ERROR for grade, _ in self.found)

    def lines(self) -> list[str]:
        """The messages, errors first."""
        order = sorted(self.found.items(), key=lambda entry: GRADES.index(entry[0][0]))
        return [f"loops: {grade}: {', '.join(filter(None, subjects))}{': ' if any(subjects) else ''}{text}"
                for (grade, text), subjects in order]

    def end(self) -> int:
        """Writes the messages and gives the status."""
        for line in self.lines():
            print("".join(c if c.isprintable() else repr(c)[1:-1] for c in line), file=sys.stderr)
        return 1 if self.has_errors() else 0
