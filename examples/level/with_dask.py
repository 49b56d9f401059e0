#!/usr/bin/env python3
"""The tasks of level.py on a cluster of Dask's: with_dask.py GEOTIFF FOLDER [SCHEDULER [ERROR]].

Each machine has to see the GeoTIFF, the folder and these scripts by the same names, and to have the programs. Without a
scheduler's address, or with the word `local`, two workers of this machine are the cluster. The programs are built here,
where they are missing, before a worker begins. A task is run by the Python that $PYTHON names, by this one where it names
none. A task whose worker was killed is run again on another one: it waits for the program that its first run may have left
behind, and begins with the bundle's recovery.
"""

import os
import subprocess
import sys

import level
from distributed import Client, LocalCluster, as_completed


def make_levels(client, folder):
    """Each bundle of a level is a task, and a level comes after the next finer one. The folder is prepared."""
    python, script, folder = os.environ.get("PYTHON", sys.executable), os.path.abspath(level.__file__), os.path.abspath(folder)
    for at in level.levels(folder):
        bundles = level.bundles(folder, at)
        tasks = [[python, script, "bundle", folder, str(at), str(row), str(column)] for row, column in bundles]
        done = [client.submit(subprocess.run, task, check=True, stdout=subprocess.DEVNULL, pure=False, retries=3) for task in tasks]
        for number, _ in enumerate(as_completed(done, with_results=True), 1):
            level.tell(f"level {at}: {number} of {len(bundles)} bundles")


def main(words):
    if len(words) not in (2, 3, 4):
        sys.exit(__doc__)
    geotiff, folder, *more = words
    scheduler, *error = more or ["local"]
    level.prepare(geotiff, folder, *map(level.whole_error, error))
    cluster = scheduler
    if scheduler == "local":
        cluster = LocalCluster(n_workers=2, threads_per_worker=1, dashboard_address=None)
    with Client(cluster) as client:
        make_levels(client, folder)


if __name__ == "__main__":
    main(sys.argv[1:])
