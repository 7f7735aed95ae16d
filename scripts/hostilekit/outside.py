"""Runs of the program while files and outputs fail, each with the status that it must have and the bytes that it may write."""
from __future__ import annotations

import os
import shutil
import subprocess
from dataclasses import dataclass
from pathlib import Path

DATA = Path(__file__).resolve().parents[2] / "crates" / "command_tests" / "data"
YES = """yes
a bound 50 window 55 response 55 method ucb
b bound 30 window 115 response 115 method ucb
c bound 30 window 175 response 175 method ucb"""
NOBODY = 65534  # files are read as this user if the script's own may read all
MOST_SECONDS, ENDLESS = 60, 124
RUN = 'exec "$@"'
LITTLE_MEMORY = f"ulimit -v 100000; {RUN}"


@dataclass(frozen=True)
class Case:
    """The words of a run with its name, the status and the text that it must have, and how a shell starts it."""

    name: str
    status: int
    text: str
    words: tuple[str | bytes, ...]
    shell: str = RUN


CHECK = ("check", "set.toml", "cert.json")
CASES = (
    Case("check", 0, YES, CHECK),
    Case("a folder as the set", 4, "", ("check", "folder", "cert.json")),
    Case("a folder as the certificate", 4, "", ("check", "set.toml", "folder")),
    Case("a folder as the script", 4, "", ("simulate", "set.toml", "folder")),
    Case("a folder as an ELF file", 4, "", ("analyze", "folder.toml")),
    Case("a set that may not be read", 4, "", ("check", "closed-set.toml", "cert.json")),
    Case("a certificate that may not be read", 4, "", ("check", "set.toml", "closed-cert.json")),
    Case("an ELF file that may not be read", 4, "", ("analyze", "closed.toml")),
    Case("a set in a closed folder", 4, "", ("analyze", "closed/set.toml")),
    Case("a pipe as the set", 4, "", ("analyze", "pipe")),
    Case("a pipe as an ELF file", 4, "", ("analyze", "pipe.toml")),
    Case("a device as the set", 4, "", ("analyze", "/dev/zero")),
    Case("a device as the certificate", 4, "", ("check", "set.toml", "/dev/null")),
    Case("a link that goes in a circle", 4, "", ("analyze", "round")),
    Case("a name that is too long", 4, "", ("analyze", "x" * 5000)),
    Case("a link to nowhere", 2, "refused 80 NoFile broken -", ("analyze", "broken")),
    Case("a link to the set", 0, YES, ("check", "linked", "cert.json")),
    Case("an empty name", 2, "refused 80 NoFile  -", ("analyze", "")),
    Case("a set of 16 MB and a byte", 2, "refused 81 FileTooLong long.toml -", ("analyze", "long.toml")),
    Case("a certificate of 1 TB", 2, "refused 81 FileTooLong longer.json -", ("check", "set.toml", "longer.json")),
    Case("words that are not text", 3, "bad words", ("check", b"\xff", "cert.json")),
    Case("a closed output", 5, "", CHECK, f"{RUN} >&-"),
    Case("a full disk", 5, "", CHECK, f"{RUN} > /dev/full"),
    Case("a pipe that nobody reads", 5, "", CHECK, f"exec 3<>gone 4>gone 3<&-; {RUN} >&4"),
    Case("a closed output and bad words", 5, "", (), f"{RUN} >&-"),
    Case("a closed output and a folder", 4, "", ("check", "folder", "cert.json"), f"{RUN} >&-"),
    Case("closed input and messages", 0, YES, CHECK, f"{RUN} <&- 2>&-"),
    Case("a certificate larger than memory", 6, "", ("check", "set.toml", "large.json"), LITTLE_MEMORY),
    Case("a certificate within this memory", 0, YES, CHECK, LITTLE_MEMORY),
)


def prepare(folder: Path) -> None:
    """Makes the files that the cases name."""
    names = {"three.toml": "set.toml", "three.json": "cert.json", "three-script.toml": "script.toml"}
    for name in (*names, "a.elf", "b.elf", "c.elf"):
        shutil.copy(DATA / name, folder / names.get(name, name))
    for name in ("folder", "closed"):
        (folder / name).mkdir()
    shutil.copy(folder / "set.toml", folder / "closed")
    text = (folder / "set.toml").read_text(encoding="utf-8")
    for name, other in (("folder", "folder"), ("closed", "closed-a.elf"), ("pipe", "pipe")):
        (folder / f"{name}.toml").write_text(text.replace('"a.elf"', f'"{other}"'), encoding="utf-8")
    for name, goal in (("broken", "nowhere"), ("round", "round"), ("linked", "set.toml")):
        (folder / name).symlink_to(goal)
    for name in ("pipe", "gone"):
        os.mkfifo(folder / name)
        (folder / name).chmod(0o666)
    for name, size in (("long.toml", (16 << 20) + 1), ("longer.json", 1 << 40), ("large.json", 128 << 20)):
        (folder / name).touch()
        os.truncate(folder / name, size)
    for name in ("set.toml", "cert.json", "a.elf"):
        shutil.copy(folder / name, folder / f"closed-{name}")
        (folder / f"closed-{name}").chmod(0)
    (folder / "closed").chmod(0)


def ended(case: Case, crpd: Path, folder: Path) -> tuple[int, str]:
    """The status of a run, and what it wrote; another user's if this one may read all. The status is 124 if it does not end."""
    words: list[str | bytes | Path] = ["sh", "-c", case.shell, "sh", crpd, *case.words]
    user = NOBODY if os.getuid() == 0 else None
    try:
        run = subprocess.run(words, cwd=folder, user=user, group=user, extra_groups=None if user is None else (),
                             stdin=subprocess.DEVNULL, stdout=subprocess.PIPE, stderr=subprocess.DEVNULL, timeout=MOST_SECONDS, check=False)
    except subprocess.TimeoutExpired:
        return ENDLESS, ""
    return run.returncode, run.stdout.decode(errors="replace").rstrip("\n")


def faults_of(case: Case, status: int, text: str) -> str:
    """What is not as it must be."""
    faults = [f"WRONG, wanted {case.status}"] * (status != case.status) + [f"WRONG text: {text[:100]}"] * (text != case.text)
    return ", ".join(faults)


def try_outside(crpd: Path, place: Path) -> bool:
    """Runs all cases in a new folder, with a line for each; whether all ended as they must."""
    folder, wrong = place / "outside", False
    folder.mkdir()
    prepare(folder)
    for case in CASES:
        status, text = ended(case, crpd, folder)
        faults = faults_of(case, status, text)
        wrong = wrong or bool(faults)
        print(f"{case.name:34} status {status}  {faults or 'ok'}", flush=True)
    for path in (folder / "closed", *folder.glob("closed-*")):
        path.chmod(0o755)
    return not wrong
