"""The machine on which a tool measures, for its table, and what a run uses of it."""

import datetime
import os
import subprocess


def processor():
    """Returns the processor's model."""
    with open("/proc/cpuinfo", encoding="utf-8") as file:
        return next((it.partition(":")[2].strip() for it in file if it.startswith("model name")), "an unnamed processor")


def describe():
    """Returns the date, the number of processors and their model, and the load of the last minute."""
    return f"{datetime.date.today()}, {os.cpu_count()} processors ({processor()}), load {os.getloadavg()[0]:.1f}"


def use(words):
    """Returns the exit status of a program, whose output is dropped, and the resources that it used."""
    with open(os.devnull, "wb") as nowhere:
        child = subprocess.Popen(words, stdin=subprocess.DEVNULL, stdout=nowhere, stderr=nowhere)
        _, status, used = os.wait4(child.pid, 0)
        child.returncode = os.waitstatus_to_exitcode(status)
    return child.returncode, used


def cpu_seconds(words):
    """Returns the CPU time of a program, user and system."""
    _, used = use(words)
    return used.ru_utime + used.ru_stime
