"""Sets whose windows are long to compute, and scripts whose runs are long."""
from __future__ import annotations

from .parts import ADDI, ADDI_X6, ECALL, LESS, LONGEST_PERIOD, RETURN, Files, bne, elf, jal, job, loop, platform, task


def idle(line: int, sets: int) -> str:
    """A platform on which an instruction takes one cycle, and nothing else takes any."""
    return platform(line=line, sets=sets, miss=0, data=0, taken=0, switch=0)


def crowd(cycles: int) -> Files:
    """10,000 jobs of thirty-two tasks, all released at 0."""
    files: Files = {f"t{i}.elf": elf([ADDI, ADDI, ADDI, ECALL], 0x1000 + 0x1000 * i) for i in range(32)}
    files["set.toml"] = platform() + "".join(task(f"t{i}", f"t{i}.elf", LONGEST_PERIOD) for i in range(32))
    files["script.toml"] = f"cycles = {cycles}\n" + "".join(job(f"t{k % 32}", 0, 0) for k in range(10000))
    return files


def full_load(more: int = 0) -> Files:
    """Loads that add up to 1 - 2^-38: 255 cycles of 256, and a cycle of each power of two after that, or of one more."""
    text = idle(64, 1) + task("a", "a.elf", 256)
    text += "".join(task(f"t{k}", "b.elf", LONGEST_PERIOD if k == 39 else (1 << k) + more) for k in range(9, 40))
    return {"a.elf": elf([ADDI] * 254 + [ECALL]), "b.elf": elf([ECALL], 0x2000), "set.toml": text}


def steep_load() -> Files:
    """The same load in other steps: 16,383 cycles of 16,384, and a task below all the others that uses all 512 cache sets."""
    first = [ADDI_X6, bne(0), bne(-8), ECALL]
    last = [jal(1, 12), jal(1, 8), ECALL] + [ADDI_X6] * 509 + [RETURN]
    text = idle(4, 512) + task("a", "a.elf", 1 << 14, more=loop(0x1000, 2, 0x100C) + loop(0x1004, 8189))
    text += "".join(task(f"t{k}", "b.elf", (1 << k) + 1) for k in range(15, 39)) + task("last", "last.elf", LONGEST_PERIOD)
    return {"a.elf": elf(first), "b.elf": elf([ECALL], 0x20000), "last.elf": elf(last, 0x40000), "set.toml": text}


def delayed_load() -> Files:
    """A load of 1 - 2^-32, an eighth of it loads that the second task's loop is counted with in its second iteration."""
    text = platform(line=4, sets=512, miss=1, data=0, taken=0, switch=0)
    text += task("a", "a.elf", 8) + task("m", "m.elf", 16, more=loop(0x2000, 2, 0x2008))
    text += "".join(task(f"t{k}", "b.elf", 1 << k) for k in range(5, 34)) + task("last", "b.elf", LONGEST_PERIOD)
    middle = elf([ADDI_X6, bne(-4), ECALL], 0x2000)
    return {"a.elf": elf([ECALL], 0x1000), "m.elf": middle, "b.elf": elf([ECALL], 0x20004), "set.toml": text}


def prime_from(number: int) -> int:
    """The first prime from a number on."""
    while any(number % divisor == 0 for divisor in range(2, int(number ** 0.5) + 1)):
        number += 1
    return number


def turning(cycles: int, base: int) -> tuple[bytes, str]:
    """A program of about that many cycles, if each instruction takes one: a loop in a loop, and the loops as the set has them."""
    inner = min(cycles, 1_000_000)
    outer = max(1, cycles // (inner + 1))
    return elf([ADDI, bne(0), bne(-8), ECALL], base), loop(base, outer, base + 12) + loop(base + 4, inner)


def odd_periods() -> Files:
    """Periods without a common measure, each task with half of the load that is left: 1 - 2^-12 in all."""
    files: Files = {}
    text = idle(64, 1)
    for i in range(13):
        period = prime_from(1000 * 5 ** i) if i < 12 else LONGEST_PERIOD
        files[f"t{i}.elf"], own = turning((period >> (i + 1)) - 10 if i < 12 else 10, 0x1000 + 0x1000 * i)
        text += task(f"t{i}", f"t{i}.elf", period, more=own)
    return {**files, "set.toml": text}


def reloads() -> Files:
    """Periods without a common measure, and tasks that each fill all 512 cache sets: a loop over an instruction in each."""
    files: Files = {}
    text = platform(line=4, sets=512)
    for i in range(16):
        base = 0x10000 * (i + 1)
        files[f"t{i}.elf"] = elf([ADDI_X6] * 510 + [LESS, bne(4 - 4 * 512), ECALL], base)
        text += task(f"t{i}", f"t{i}.elf", prime_from(20000 * 3 ** i), more=loop(base, 2, base + 4 * 512))
    return {**files, "set.toml": text}


def many_reloads(miss: int = 10) -> Files:
    """A long job that is preempted some 8,000 times, by jobs of which there are 9,999, each time by one that evicts all 512 cache
    sets; some 500 are useful to it."""
    body = [0x000072B7, 0x53028293, jal(1, 20), jal(1, 16), LESS, bne(-8), ECALL] + [ADDI_X6] * 499 + [RETURN]
    text = platform(line=4, sets=512, miss=miss) + task("high", "high.elf", 12500)
    text += task("low", "low.elf", LONGEST_PERIOD, more=loop(0x2000C, 30000, 0x20018))
    jobs = job("low", 0, 0) + "".join(job("high", 12500 * k, 12500 * k) for k in range(1, 10000))
    return {
        "high.elf": elf([ADDI_X6] * 511 + [ECALL], 0x10000), "low.elf": elf(body, 0x20000),
        "set.toml": text, "script.toml": "cycles = 200000000\n" + jobs,
    }
