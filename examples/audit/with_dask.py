#!/usr/bin/env python3
"""The bundles of audit_cache on a cluster of Dask's: with_dask.py [--strict] [--days D] [--against OLD] FOLDER RESULTS [SCHEDULER].

Each machine has to see the folders and these scripts by the same names, and to have the programs. Without a scheduler's
address, or with the word `local`, two workers of this machine are the cluster. Each bundle that is owed is a task. One whose
worker was killed is run again on another: a result stands once it is whole. At the end audit_cache itself goes over the
results, here: it tries again what could not be audited, and what it gives and its status are those of this script.
"""

import os
import subprocess
import sys

from distributed import Client, LocalCluster, as_completed

SCRIPT = os.path.join(os.path.dirname(os.path.abspath(__file__)), "audit_cache")


def options_of(words):
    """The words in front of the folders, and the others."""
    at = 0
    while at < len(words) and words[at].startswith("--"):
        at += 1 if words[at] == "--strict" else 2
    return words[:at], words[at:]


def owed(options, folder, results):
    """The names of the bundles that are owed."""
    days = [word for at, word in enumerate(options) if "--days" in (word, options[at - 1] if at else "")]
    given = subprocess.run([SCRIPT, "--owed", *days, folder, results], check=True, stdout=subprocess.PIPE)
    return os.fsdecode(given.stdout).splitlines()


def audit(client, names, folder, results, strict):
    """Each of these bundles is a task."""
    os.makedirs(results, exist_ok=True)
    front = [SCRIPT, "--one", results, strict, str(len(names))]
    tasks = [[*front, os.path.join(folder, name + ".bundle"), name] for name in names]
    done = [client.submit(subprocess.run, task, check=True, stderr=subprocess.DEVNULL, pure=False, retries=3) for task in tasks]
    for number, _ in enumerate(as_completed(done), 1):
        print(f"{number} of {len(names)} bundles", file=sys.stderr, flush=True)


def main(words):
    options, rest = options_of(words)
    if len(rest) not in (2, 3) or not os.path.isdir(rest[0]):
        sys.exit(__doc__)
    folder, results = map(os.path.abspath, rest[:2])
    names = owed(options, folder, results)
    if names:
        cluster = rest[2] if len(rest) == 3 else "local"
        if cluster == "local":
            cluster = LocalCluster(n_workers=2, threads_per_worker=1, dashboard_address=None)
        with Client(cluster) as client:
            audit(client, names, folder, results, "strict" if "--strict" in options else "")
    sys.exit(subprocess.run([SCRIPT, *options, folder, results]).returncode)


if __name__ == "__main__":
    main(sys.argv[1:])
