#!/usr/bin/python3
"""dask_lines.py FILE: by Dask's distributed scheduler, with two worker processes on this machine.

A cluster of several machines is `Client("tcp://SCHEDULER:8786")`; the file is then one that all workers can read, as
"s3://BUCKET/FILE", and each needs the program.
"""
import os
import subprocess
import sys

from dask import delayed
from dask.bytes import read_bytes
from dask.distributed import Client, LocalCluster

PROGRAM = os.environ.get("REGROUP_LINES", "regroup-lines")
BLOCK = int(os.environ.get("BLOCK", 10_000_000))


@delayed(pure=False)
def regroup(lines):
    """The lines as the program writes them. A status other than 0 is an error."""
    return subprocess.run([PROGRAM, "en", "de"], input=lines, stdout=subprocess.PIPE, check=True).stdout


def main():
    with LocalCluster(n_workers=2, threads_per_worker=1, dashboard_address=None) as cluster, Client(cluster) as client:
        _, (blocks,) = read_bytes(sys.argv[1], delimiter=b"\n", blocksize=BLOCK, sample=False)
        for block in client.compute([regroup(block) for block in blocks]):
            sys.stdout.buffer.write(block.result())


if __name__ == "__main__":
    main()
