#!/usr/bin/env python3
"""Formats and parses a column of numbers in partitions, on Dask's distributed scheduler with two processes.

    python3 examples/dask_column.py [NUMBERS] [LOCALE]    # 50,000,000 under de

Each partition becomes a column of texts and then numbers again. The texts may go from one process to the
other. The last line says how many numbers there are and how many are equal; the exit status is 1 if not all.
"""
import sys
import tempfile
import time

import dask.array
import numpy as np
from dask import delayed
from dask.distributed import Client, LocalCluster

from num_format import Format
from num_format.columns import format_column, parse_column

# The numbers in a partition.
PARTITION = 1_000_000


def numbers_of(count):
    """A column of random numbers of one to nineteen digits and both signs, in partitions."""
    random = dask.array.random.RandomState(35)
    chunks = min(PARTITION, -(-count // 4))
    wide = random.randint(-(2**63), 2**63 - 1, size=count, chunks=chunks, dtype=np.int64)
    return wide >> random.randint(0, 63, size=count, chunks=chunks, dtype=np.int64)


def round_trip(numbers, form):
    """How many bytes the texts of a column have, and how many of its numbers are equal after the way back."""
    bytes_in_all, equal = [], []
    for part in numbers.to_delayed():
        texts = delayed(format_column)(part, form)
        again = delayed(parse_column)(texts, form)
        bytes_in_all.append(texts.data.nbytes)
        equal.append((part == again).sum())
    return delayed(sum)(bytes_in_all), delayed(sum)(equal)


def main():
    count = int(sys.argv[1]) if len(sys.argv) > 1 else 50_000_000
    form = Format.locale(sys.argv[2] if len(sys.argv) > 2 else "de")
    with tempfile.TemporaryDirectory() as folder:
        cluster = LocalCluster(
            n_workers=2, threads_per_worker=1, processes=True, dashboard_address=None, local_directory=folder
        )
        with cluster, Client(cluster) as client:
            numbers = numbers_of(count)
            start = time.perf_counter()
            size, equal = client.compute(round_trip(numbers, form), sync=True)
            seconds = time.perf_counter() - start
    print(f"{numbers.npartitions} partitions, {size:,} bytes of text, {seconds:.1f} seconds")
    print(f"{count:,} numbers, {int(equal):,} equal")
    return 0 if equal == count else 1


if __name__ == "__main__":
    sys.exit(main())
