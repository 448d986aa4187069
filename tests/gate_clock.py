#!/usr/bin/env python3
"""Runs the merge gate, or any other command, and says where its processor time went.

Usage: tests/gate_clock.py TABLE COMMAND [ARGUMENT ..]

What the command writes and its exit status pass through unchanged. The file TABLE gets a line for each crate with the
processor minutes of its proof, its tests and its edits, as /proc shows them twice a second. `other` is what is left:
linking, the runs of programs and tests, `rt` itself, and the last moments of each check. The last line is the whole, as the
system counted it for the command and all that it started. Where there is no /proc, it stands alone.
"""
import os
import resource
import subprocess
import sys
import time

PERIOD = 0.5
KINDS = ("proof", "tests", "edits")


def stat_of(pid):
    """Returns a process's parent, when it started, and the processor seconds that it took; None where it is gone."""
    try:
        with open(f"/proc/{pid}/stat", encoding="utf-8", errors="replace") as it:
            # (its name, in parentheses, may hold anything)
            fields = it.read().rpartition(")")[2].split()
    except OSError:
        return None
    return int(fields[1]), fields[19], (int(fields[11]) + int(fields[12])) / os.sysconf("SC_CLK_TCK")


def task_of(pid):
    """Returns the crate and the kind of work of a process of the prover, and None for any other."""
    try:
        with open(f"/proc/{pid}/cmdline", encoding="utf-8", errors="replace") as it:
            words = it.read().split("\0")
        folder = os.readlink(f"/proc/{pid}/cwd")
    except OSError:
        return None
    if not words[0].endswith("/rattle") or "--crate-name" not in words:
        return None
    after = {word: following for word, following in zip(words, words[1:])}
    # edits are checked in a copy of the crate, below a folder of this name
    is_edit = "/edits-" in folder
    return after["--crate-name"], "edits" if is_edit else "tests" if "--test" in words else "proof"


class Clock:
    """The processor seconds of each process of the prover that this one started, as last seen."""

    def __init__(self):
        self.tasks, self.seconds = {}, {}

    def look(self):
        try:
            stats = {int(name): stat_of(name) for name in os.listdir("/proc") if name.isdigit()}
        except OSError:
            return
        stats = {pid: stat for pid, stat in stats.items() if stat}
        for pid, (_, start, seconds) in stats.items():
            key = pid, start
            if key not in self.tasks and self.is_ours(pid, stats):
                task = task_of(pid)
                if task:
                    self.tasks[key] = task
            if key in self.tasks:
                self.seconds[key] = seconds

    @staticmethod
    def is_ours(pid, stats):
        while pid in stats and pid != os.getpid():
            pid = stats[pid][0]
        return pid == os.getpid()

    def by_crate(self):
        """Returns the minutes of each kind for each crate, in the order in which they were first seen."""
        found = {}
        for key, (crate, kind) in self.tasks.items():
            minutes = found.setdefault(crate, dict.fromkeys(KINDS, 0.0))
            minutes[kind] += self.seconds[key] / 60
        return found


def table_of(crates, processor, clock):
    """Returns the table's lines, from minutes."""
    lines = []
    if crates:
        width = max(map(len, [*crates, "crate"]))
        lines.append(" ".join([f"{'crate':{width}}", *[f"{it:>6}" for it in (*KINDS, "all")]]))
        for crate, minutes in crates.items():
            figures = [*minutes.values(), sum(minutes.values())]
            lines.append(" ".join([f"{crate:{width}}", *[f"{it:6.1f}" for it in figures]]))
        seen = {kind: sum(minutes[kind] for minutes in crates.values()) for kind in KINDS}
        other = max(processor - sum(seen.values()), 0.0)
        lines.append(f"{'other':{width}} {' ' * 20} {other:6.1f}")
        lines.append(" ".join([f"{'all':{width}}", *[f"{it:6.1f}" for it in (*seen.values(), processor)]]))
    lines.append(f"gate: {processor:.1f} processor minutes, {clock:.1f} minutes by the clock")
    return lines


def main(table, *command):
    began, clock = time.monotonic(), Clock()
    with subprocess.Popen(command) as running:
        while running.returncode is None:
            clock.look()
            try:
                running.wait(PERIOD)
            except subprocess.TimeoutExpired:
                pass
            except KeyboardInterrupt:
                # the command was interrupted too, and ends by itself
                pass
    used = resource.getrusage(resource.RUSAGE_CHILDREN)
    lines = table_of(clock.by_crate(), (used.ru_utime + used.ru_stime) / 60, (time.monotonic() - began) / 60)
    with open(table, "w", encoding="utf-8") as it:
        it.write("".join(f"{line}\n" for line in lines))
    status = running.returncode
    return status if status >= 0 else 128 - status


if __name__ == "__main__":
    if len(sys.argv) < 3:
        sys.exit("Usage: tests/gate_clock.py TABLE COMMAND [ARGUMENT ..]")
    sys.exit(main(*sys.argv[1:]))
