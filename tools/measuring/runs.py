"""What one run of a program takes."""

import os
import subprocess
import tempfile
from dataclasses import dataclass


@dataclass
class Run:
    """The status of a run, its processor time in seconds, its memory in megabytes, and how many bytes it wrote."""

    status: int
    seconds: float
    megabytes: float
    written: int


def least_run(program, words, text, times, processors):
    """The run that took least of some runs on a text; with `processors` set, on these alone."""
    return min((one_run(program, words, text, processors) for _ in range(times)), key=lambda run: run.seconds)


def one_run(program, words, text, processors):
    """One run of a program on a text."""
    def bind():
        if processors:
            os.sched_setaffinity(0, processors)

    with tempfile.TemporaryFile() as source, tempfile.TemporaryFile() as sink:
        source.write(text.encode('ascii'))
        source.seek(0)
        child = subprocess.Popen([program, *words], stdin=source, stdout=sink, preexec_fn=bind)
        _, status, usage = os.wait4(child.pid, 0)
        child.returncode = os.waitstatus_to_exitcode(status)
        seconds = usage.ru_utime + usage.ru_stime
        return Run(child.returncode, seconds, usage.ru_maxrss / 1024, sink.seek(0, os.SEEK_END))
