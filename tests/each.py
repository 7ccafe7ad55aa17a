"""Side by side, what a function gives of each of several items, in their order."""
import concurrent.futures
import os


def each(function, items, jobs=4):
    """In so many threads, which suffices where other programs do the work."""
    with concurrent.futures.ThreadPoolExecutor(jobs) as pool:
        yield from pool.map(function, items)


def in_processes(function, items):
    """In as many processes as there are processors."""
    with concurrent.futures.ProcessPoolExecutor(os.cpu_count()) as pool:
        yield from pool.map(function, items)
