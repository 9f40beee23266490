"""nightly_test.py FOLDER EXPECTED: python/examples/nightly.py on a cluster of two workers here, one of which is ended in the middle, over a
folder of goldens whose totals, as `sill totals` prints them, are in a file. A line for each thing that is held, or failed."""

import os
import signal
import subprocess
import sys
import time
from pathlib import Path

PYTHON = Path(__file__).resolve().parent.parent
PLACES = [str(PYTHON), str(PYTHON / "examples")]
os.environ["PYTHONPATH"] = os.pathsep.join([*PLACES, os.environ.get("PYTHONPATH", "")]).rstrip(os.pathsep)
sys.path[:0] = PLACES

AT_ONCE = 5


def end_one_in_the_middle(client, cluster, future):
    """Ends the worker that holds the most parts, once some are counted and some are not: how many were, how many it held, and
    whether all was over."""
    while True:
        held = {address: [key for key in keys if key.startswith("totals-")] for address, keys in client.has_what().items()}
        done = sum(map(len, held.values()))
        if done >= 4 or future.done():
            break
        time.sleep(0.005)
    address = max(held, key=lambda worker: len(held[worker]))
    nanny = next(worker for worker in cluster.workers.values() if worker.worker_address == address)
    os.kill(nanny.pid, signal.SIGKILL)
    return done, len(held[address]), future.done()


def main():
    import nightly
    from dask.distributed import Client, LocalCluster

    folder, expected = sys.argv[1], Path(sys.argv[2]).read_text()
    answers = []

    def hold(what, held):
        answers.append(held)
        print(f"{'held' if held else 'failed'}: {what}")

    files = nightly.found([folder])
    parts = len(list(nightly.parts(files, AT_ONCE)))
    with LocalCluster(n_workers=2, threads_per_worker=1, dashboard_address=None) as cluster, Client(cluster) as client:
        future = nightly.counted(client, files, AT_ONCE)
        done, lost, over = end_one_in_the_middle(client, cluster, future)
        hold(f"a worker was ended with {lost} of the {done} parts counted by then, of {parts}", lost > 0 and not over)
        hold("the totals are those of one process", str(future.result(timeout=60)) == expected)
    command = [sys.executable, str(PYTHON / "examples/nightly.py"), folder]
    told = subprocess.run(command, capture_output=True, text=True)
    hold("nightly.py prints what sill totals prints", (told.returncode, told.stdout) == (0, expected))
    sys.exit(0 if all(answers) else 1)


if __name__ == "__main__":
    main()
