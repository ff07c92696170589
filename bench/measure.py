#!/usr/bin/env python3
"""measure.py RUNS TRACE PROGRAM: runs wc -l, grep -c w and PROGRAM judge on the trace, RUNS times each in turn.

Prints for each the least CPU seconds (user and system together), their ratio to grep's, the least seconds on the
clock and the most memory. What a command writes goes to the file TRACE.out.
"""
import os
import sys
import time

# A child that Python starts has Python's own memory as its least peak; one that this starts has not.
TIME = "/usr/bin/time"
STATUSES = {"wc": (0,), "grep": (0,), "judge": (0, 8)}


def run(words, trace):
    """Returns the CPU seconds, the seconds on the clock, the peak memory in MiB and the status."""
    if os.path.exists(TIME):
        words = [TIME, "--quiet", "-f", "%M", "-o", trace + ".peak", *words]
    output = (os.POSIX_SPAWN_OPEN, 1, trace + ".out", os.O_WRONLY | os.O_CREAT | os.O_TRUNC, 0o600)
    begun = time.monotonic()
    child = os.posix_spawnp(words[0], words, {**os.environ, "LC_ALL": "C"}, file_actions=[output])
    _, status, used = os.wait4(child, 0)
    clock = time.monotonic() - begun
    peak = used.ru_maxrss
    if words[0] == TIME:
        with open(trace + ".peak", encoding="ascii") as file:
            peak = int(file.read())
    return used.ru_utime + used.ru_stime, clock, peak / 1024, os.waitstatus_to_exitcode(status)


def main(runs, trace, program):
    commands = {"wc": ["wc", "-l", trace], "grep": ["grep", "-c", "w", trace], "judge": [program, "judge", trace]}
    results = {name: [] for name in commands}
    for _ in range(int(runs)):
        for name, words in commands.items():
            cpu, clock, peak, status = run(words, trace)
            if status not in STATUSES[name]:
                sys.exit(f"{' '.join(words)} ended with status {status}")
            results[name].append((cpu, clock, peak))
    least = {name: min(cpu for cpu, _, _ in of) for name, of in results.items()}
    for name, shown in (("wc", "wc -l"), ("grep", "grep -c w"), ("judge", "judge")):
        clock = min(clock for _, clock, _ in results[name])
        peak = max(peak for _, _, peak in results[name])
        ratio = least[name] / least["grep"]
        print(f"  {shown:10} {least[name]:6.2f} s CPU {ratio:6.2f} x grep {clock:6.2f} s on the clock {peak:8.1f} MiB")


main(*sys.argv[1:])
