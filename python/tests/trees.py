"""Makes trees of cgroups in a folder, in the kernel's format."""
import os

STAT = ("usage_usec {usage}\nuser_usec {usage}\nsystem_usec 0\nnr_periods {periods}\n"
        "nr_throttled {throttled}\nthrottled_usec 0\nnr_bursts 0\nburst_usec 0\n")
PRESSURE = ("some avg10=0.00 avg60=0.00 avg300=0.00 total={waited}\n"
            "full avg10=0.00 avg60=0.00 avg300=0.00 total=0\n")


def put(folder, **files):
    """Writes files of a folder; an underscore stands for a dot."""
    os.makedirs(folder, exist_ok=True)
    for name, text in files.items():
        with open(os.path.join(folder, name.replace("_", ".")), "w", encoding="utf-8") as file:
            file.write(text if text.endswith("\n") else f"{text}\n")


def root2(folder, usage=0, enabled="cpu io memory"):
    """The top of a tree."""
    put(folder, cgroup_controllers="cpuset cpu io memory pids", cpu_stat=f"usage_usec {usage}")
    with open(f"{folder}/cgroup.subtree_control", "w", encoding="utf-8") as file:
        file.write(enabled + "\n")


def group2(folder, weight=100, maximum="max 100000", burst=0, usage=0, threads=1, periods=0,
           throttled=0, waited=0):
    """A group."""
    put(folder, cpu_weight=str(weight), cpu_max=maximum, cpu_max_burst=str(burst),
        cpu_stat=STAT.format(usage=usage, periods=periods, throttled=throttled),
        cpu_pressure=PRESSURE.format(waited=waited),
        cgroup_threads="".join(f"{number}\n" for number in range(100, 100 + threads)))
