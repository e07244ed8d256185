"""Ways in which a worker process answers for a host, by name: workers import them."""
import os
import signal
import time

from arbiter_host.fleet import work


def by_name(job, host):
    """What the name of the host says: to die, to raise, to take a while, else to be right."""
    if host.name.startswith("die"):
        os.kill(os.getpid(), signal.SIGKILL)
    if host.name.startswith("raise"):
        raise ValueError("\x1b[31m")
    if host.name.startswith("hang"):
        time.sleep(3600)
    if host.name.startswith("slow"):
        time.sleep(0.7)
    return work.answered(job, host)
