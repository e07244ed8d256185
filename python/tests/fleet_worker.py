"""A scheduler of Dask, or one of its workers, for the tests of fleets.

    fleet_worker.py scheduler        prints its address, and serves until it is killed
    fleet_worker.py ADDRESS MODE     a worker: honest, or wrong in one way
"""
import asyncio
import os
import sys
import time

import distributed
from places import PACKAGE

sys.path[:0] = [str(PACKAGE)]
from arbiter_host.fleet import work  # noqa: E402


def forged(job, host):
    """Rows of which the last group stands below itself."""
    told = honest(job, host)
    (plan,) = told.plans
    parents, *rest = plan.columns
    parents[-1] = len(parents) - 1
    return told._replace(plans=[plan._replace(columns=(parents, *rest))])


def hung(job, host):
    """Never ends. What waits for it reads that it has begun."""
    print("begun", flush=True)
    time.sleep(3600)


def other(job, host):
    """An object of another kind."""
    return {"results": host}


honest = work.answered
MODES = {"honest": honest, "forged": forged, "hung": hung, "other": other}


async def scheduler():
    """Serves until it is killed."""
    async with distributed.Scheduler(port=0, host="127.0.0.1", dashboard_address=None,
                                     protocol=f"{os.environ['PROTOCOL']}://") as served:
        print(served.address, flush=True)
        await served.finished()


async def worker(address, mode):
    """Serves one scheduler."""
    work.answered = MODES[mode]
    async with distributed.Worker(address, nthreads=1, name=mode, extensions={}) as served:
        print(served.address, flush=True)
        await served.finished()


if __name__ == "__main__":
    asyncio.run(scheduler() if sys.argv[1] == "scheduler" else worker(*sys.argv[1:]))
