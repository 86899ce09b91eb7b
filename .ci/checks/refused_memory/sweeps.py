"""Sweeps: tasks that run side by side, and what is wrong with their answers.

A task is a name, a function and its arguments. The function answers with a number of runs, with what is wrong, and
with how often each call of a group was refused, by groups.
"""
import collections
import subprocess
import time
from concurrent.futures import ProcessPoolExecutor

from kit import lanes

from .groups import never_refused

SHOWN = 40


def job(task):
    """Runs a task, and returns its answer with the seconds that it took."""
    _, call, *words = task
    started = time.time()
    try:
        answer = call(*words)
    except (RuntimeError, ValueError, subprocess.SubprocessError) as why:
        answer = 0, [str(why)], {}
    return *answer, time.time() - started


def sweep(build, tasks, groups):
    """Runs all tasks over one build, and says what is wrong. Returns the number of faults."""
    seen, totals = {group: collections.Counter() for group in groups}, collections.defaultdict(lambda: [0, 0.0])
    faults = []
    with ProcessPoolExecutor(lanes()) as pool:
        for (name, *_), (count, found, refused, seconds) in zip(tasks, pool.map(job, tasks)):
            totals[name][0] += count
            totals[name][1] += seconds
            faults += [f"{name}: {it}" for it in found]
            for group, calls in refused.items():
                seen[group].update(calls)
    faults += never_refused(groups, seen)
    for name, (count, seconds) in totals.items():
        print(f"{build}, {name}: {count} runs, {seconds:.1f} seconds")
    for fault in faults[:SHOWN]:
        print(f"{build}, {fault}", flush=True)
    return len(faults)


def sweep_all(builds, groups):
    """The same over builds, each with its tasks. Returns the status."""
    started = time.time()
    faults = sum(sweep(build, tasks, groups) for build, tasks in builds)
    print(f"refused-memory: {faults} faults, {time.time() - started:.0f} seconds")
    return 1 if faults else 0
