"""The time that a call takes."""
import time


def least_time(call, runs):
    """The least of the times of several runs, in seconds."""
    times = []
    for _ in range(runs):
        before = time.perf_counter()
        call()
        times.append(time.perf_counter() - before)
    return min(times)
