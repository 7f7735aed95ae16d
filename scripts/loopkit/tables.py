"""Makes the loop tables of tasks, with bounds from sources, code and old tables."""
from __future__ import annotations

import re
from collections.abc import Callable
from dataclasses import dataclass, field

from .carry import COUNTED, ONE_MORE, Old
from .expressions import Told
from .image import Found, Image, TaskLoops, ranges_of
from .origin import Site
from .report import Report
from .taskset import Table

MOST_LOOPS = 64
PART = "__asm__ volatile (\"nop\");"
TWO_ENTRIES = (f"begin the body of the outer loop with {PART} or give the function"
               " __attribute__((optimize(\"no-thread-jumps\", \"no-shrink-wrap\")))")
LIBRARY = frozenset(("memset", "memcpy", "memmove", "memcmp", "memchr", "strlen", "strcpy", "strncpy", "strcmp", "strncmp", "strcat", "strchr",
                     "qsort", "bsearch", "printf", "sprintf", "snprintf"))

Names = tuple[str, ...]


def stated_bounds(text: str) -> dict[str, list[int]]:
    """The turns that comments of a set state for functions without a source."""
    found = re.finditer(r"^\s*#\s*bound\s+([A-Za-z_]\S*)((?:\s+\d{1,9})+)\s*$", text, re.M)
    return {match[1]: [int(word) for word in match[2].split()] for match in found}


def turns_in_source(site: Site, names: Names) -> int:
    """The turns that a loop of the source states for a task of these names, 0 for none."""
    return site.loop.bound.of(names) if site.loop.bound else 0


@dataclass
class Writer:
    """Makes the tables of the tasks of an ELF file. `stated` has the turns that the set states for functions without a source.
    The rest is what was met: loops without a bound for want of a source, by function, and those whose old bound has moved."""

    image: Image
    report: Report
    stated: dict[str, list[int]]
    bare: dict[str, list[str]] = field(default_factory=dict)
    moved: list[str] = field(default_factory=list)

    def tables(self, subject: str, task: TaskLoops, names: Names, old: Old) -> list[Table]:
        """The tables of a task, and what is to be said of them."""
        new = [self.bare_table(found) for found in task.loops]
        self.look_at_flow(subject, task)
        old.compare(new)
        self.give_bounds(subject, task.loops, new, names, old)
        strange = {function for function, _ in task.strange}
        for found, table in zip(task.loops, new):
            self.look_at(subject, found, table, found.function in strange)
            self.add_note(found, table)
        gone = [table for table in old.left() if table.is_by_hand()]
        for table in gone:
            self.report.warn(subject, f"no loop is as the one at {table.head} ({table.comment}) with bound {table.bound}, set by hand")
        return new

    # What a table says.

    def bare_table(self, found: Found) -> Table:
        names = self.image.names
        ranges = [[names.place(a), names.place(b, near=a)] for a, b in ranges_of(found.loop.body)]
        return Table(names.place(found.loop.head), 0, ranges, self.comment(found))

    def comment(self, found: Found) -> str:
        parts = [f"{found.function} at {found.loop.head:08x}".strip()]
        origin = origin_of(found)
        if origin:
            parts.append(origin)
        if found.loop.parent is not None:
            parts.append(f"inside {found.loop.parent.head:08x}")
        return ", ".join(parts)

    def add_note(self, found: Found, table: Table) -> None:
        """Says in the comment whether the bound is the code's, or one more than the turns."""
        if table.bound and table.bound in (found.origin.count, 0 if origin_of(found) else found.origin.most):
            table.comment += f", {COUNTED} in the code"
        elif found.origin.one_more() and (origin_of(found) or self.stated_bound(found)):
            table.comment += f", {ONE_MORE}"

    # Its bound.

    def give_bounds(self, subject: str, loops: list[Found], new: list[Table], names: Names, old: Old) -> None:
        has_partner = [self.give_bound(subject, found, table, names, old) for found, table in zip(loops, new)]
        left = {k: table for k, table in enumerate(new) if not has_partner[k]}
        for k, (partner, how) in old.moved(left).items():
            if partner.is_by_hand() or not new[k].bound:
                self.carry(loops[k], new[k], old, partner)
                self.moved.append(f"{how}: {new[k].bound}")
            else:
                self.compare_with_partner(subject, loops[k], new[k].bound, partner)

    def give_bound(self, subject: str, found: Found, table: Table, names: Names, old: Old) -> bool:
        """Gives the bound by hand, of the source, of the set's comment, of the code, or of old tables; whether there is an old
        table of the loop."""
        stated = self.stated_bound(found) or found.origin.arrivals(lambda site: turns_in_source(site, names))
        known = stated or found.origin.arrivals(lambda site: turns_in_source(site, names) or old.turns(site.text()))
        partner = old.partner(table)
        if partner is not None:
            self.carry(found, table, old, partner)
        if partner is None or not partner.is_by_hand():
            table.bound = known or (found.origin.by_code(table.bound) if table.bound else found.origin.most)
        self.compare_with_code(subject, found, names)
        self.compare_with_partner(subject, found, stated, partner)
        return partner is not None

    def stated_bound(self, found: Found) -> int:
        """The bound by the turns that the set states for a function without a source, 0 for none."""
        turns = self.turns_in_set(found)
        return found.origin.by_code(turns + found.origin.one_more()) if turns else 0

    def turns_in_set(self, found: Found) -> int:
        """The turns that a comment of the set states for a loop without a source, 0 for none."""
        turns = self.stated.get(found.function, [])
        if not turns or any(part.site for part in found.origin.parts):
            return 0
        return turns[min(found.place, len(turns) - 1)]

    def carry(self, found: Found, table: Table, old: Old, partner: Table) -> None:
        """Adopts what the old table of the loop says."""
        table.bound = old.carried(partner, table, found.origin.one_more())
        table.above, table.behind_bound = partner.above, partner.behind_bound

    # What is compared with it.

    def compare_with_code(self, subject: str, found: Found, names: Names) -> None:
        """Compares the stated turns with those that the code makes, if the header of the loop does not say it by itself."""
        def stated(site: Site) -> int:
            turns = turns_in_source(site, names)
            return 0 if self.image.sources.is_too_few(site.loop, turns) else turns

        origin = found.origin
        wrong = origin.exceeds(stated) or self.too_few(self.turns_in_set(found), origin.counted_turns())
        believed = origin.believed(stated)
        if wrong:
            self.report.error(subject, f"{name_of(found)}: the comment says {counted(wrong)}, and the code makes {origin.counted_turns()}")
        elif believed:
            self.report.note(subject, f"{name_of(found)}: the comment says {counted(believed)}, which is believed, since the loop has"
                                      f" another way out; its tests alone allow {origin.most - origin.parts[0].tests_first}")

    def too_few(self, stated: int, made: int) -> int:
        """The stated turns if they are fewer than those that are made."""
        return stated if 0 < stated < made else 0

    def compare_with_partner(self, subject: str, found: Found, stated: int, partner: Table | None) -> None:
        """Compares an old table with what the bound is now."""
        told = stated or (found.origin.count if found.origin.is_exact else 0)
        if not told or partner is None or partner.bound in (0, told):
            return
        text = f"{name_of(found)} %s {partner.bound}; by source and code it is {told}"
        if not partner.is_by_hand():
            self.report.note(subject, text % "had the bound")
        elif found.origin.is_exact and partner.bound < found.origin.count:
            self.report.error(subject, text % "keeps its bound, set by hand,")
        else:
            self.report.warn(subject, text % "keeps its bound, set by hand,")

    # What is wrong with it.

    def look_at(self, subject: str, found: Found, table: Table, is_strange: bool) -> None:
        """Says so if a loop has no way out, no bound, or a head that serves several loops of the source."""
        if not found.ends:
            table.bound = 0
            self.report.error(subject, f"no job completes from {name_of(found)}: with any bound no run is kept to its end, and"
                                       " `yes` would say nothing; give it a way out")
            return
        if not table.bound and not is_strange:
            self.look_at_bare(subject, found)
        if found.origin.is_shared() and not table.is_by_hand():
            self.warn_of_shared_head(subject, found, table)
        elif len(found.loop.latches) > 1 and found.origin.site() is None and not found.origin.is_exact and not is_strange:
            self.report.warn(subject, f"{name_of(found)} has {len(found.loop.latches)} back edges: if they are of nested loops of"
                                      " the source, one bound covers the turns of all of them")

    def look_at_bare(self, subject: str, found: Found) -> None:
        """Says that a loop has no bound; of all loops without a source at the end, by function."""
        missing = self.image.missing_source(found.loop.head)
        if origin_of(found) or missing and found.function not in LIBRARY:
            self.report.error(subject, f"{name_of(found)} has no bound{missing}")
        else:
            self.bare.setdefault(found.function, []).append(f"{found.loop.head:08x}")

    def end(self) -> None:
        """Says what is said once for the file."""
        for loop, stated, told in self.image.sources.bounds():
            self.compare_with_header(loop.place(), stated, told)
        own = {name: heads for name, heads in self.bare.items() if name not in LIBRARY}
        for name in sorted(self.bare.keys() & LIBRARY):
            self.report.error(self.image.path, f"{name} is a C library's, and its loops have no bounds: write one of your own, with bounds")
        if own:
            heads = ", ".join(f"{name} ({' '.join(dict.fromkeys(heads))})" for name, heads in own.items())
            why = "have no bound" if self.image.has_lines else "have no bound, and there are no debug lines: compile with -g"
            self.report.error(self.image.path, f"the loops of {heads} {why}; `# bound NAME TURNS` in the set states those of a function")
        elif not self.image.has_lines:
            self.report.note(self.image.path, "there are no debug lines, so no comment of a source is read: compile with -g")
        if self.moved:
            self.report.warn(self.image.path, "loops whose bounds are in old tables alone have moved, with their bounds: "
                             + ", ".join(dict.fromkeys(self.moved)))

    def compare_with_header(self, place: str, stated: int, told: Told) -> None:
        """Says that a comment states fewer turns than the header of its loop shows."""
        if told.may_end_earlier:
            self.report.note(place, f"the comment says {counted(stated)}, which is believed, since the loop has another way out; its"
                                    f" test alone allows {told.turns}")
        else:
            self.report.error(place, f"the comment says {counted(stated)}, and the loop makes {told.turns}")

    def warn_of_shared_head(self, subject: str, found: Found, table: Table) -> None:
        cure = f"To part them, begin the body of the outer one with {PART}"
        if found.origin.has_one_back_edge():
            cure += "; or where the inner one is written out in it, a smaller bound by hand would do"
        self.report.warn(subject, f"{name_of(found)} is several loops with one head, so one bound covers the turns of all of them:"
                         f" {table.bound}. {cure}")

    def look_at_flow(self, subject: str, task: TaskLoops) -> None:
        for function, cycle in task.strange:
            places = " and ".join(self.image.line_text(a) for a in cycle.entries)
            self.report.error(subject, f"{function}: a cycle is entered at {places}; crpd refuses it at {cycle.nodes[0]:08x};"
                              f" {TWO_ENTRIES}")
        if not task.completes:
            self.report.error(subject, "no job completes from its entry")
        if len(task.loops) > MOST_LOOPS:
            self.report.error(subject, f"has {len(task.loops)} loops; a task may have {MOST_LOOPS}")


def differences(old: list[Table], new: list[Table], address: Callable[[int | str], int | None]) -> list[str]:
    """How the tables of a set differ from those that belong to its program."""
    before, now = ({address(table.head): table for table in tables} for tables in (old, new))
    found = [f"no table states the loop at {table.head} ({table.comment}), whose bound is {table.bound}"
             for at, table in now.items() if at not in before]
    found += [f"the table of {table.head} is of no loop" for at, table in before.items() if at not in now]
    for at in before.keys() & now.keys():
        if before[at].bound != now[at].bound:
            found.append(f"{now[at].head} ({now[at].comment}) has the bound {before[at].bound}, and it is {now[at].bound}")
        elif places(before[at], address) != places(now[at], address):
            found.append(f"{now[at].head} ({now[at].comment}) has other ranges")
    return sorted(found)


def places(table: Table, address: Callable[[int | str], int | None]) -> set[int]:
    """The addresses of the words that the ranges of a table hold."""
    pairs = [(address(first), address(last)) for first, last in table.ranges]
    return {a for first, last in pairs if first is not None and last is not None for a in range(first, min(last, first + (1 << 20)), 4)}


def counted(turns: int) -> str:
    """Turns in words."""
    return f"{turns} turn{'s' * (turns != 1)}"


def origin_of(found: Found) -> str:
    """The loops of the source that a loop is, as text; empty if none is known."""
    sites = [part.site.text() if part.site else "?" for part in found.origin.parts]
    return " with ".join(sites) if sites != ["?"] else ""


def name_of(found: Found) -> str:
    return f"the loop at {found.loop.head:08x} ({origin_of(found) or found.function})"
