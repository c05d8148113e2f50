"""What a run of a program takes: processor seconds and memory, by meter.c."""
import atexit
import functools
import os
import resource
import shutil
import subprocess
import sys
import tempfile

HERE = os.path.dirname(os.path.realpath(__file__))


@functools.cache
def meter():
    """The built meter, which is there until this process ends."""
    compiler = shutil.which("cc")
    if not compiler:
        sys.exit("a C compiler is needed, for bench/meter.c: install the Debian package gcc")
    folder = tempfile.TemporaryDirectory(prefix="meter-")
    atexit.register(folder.cleanup)
    flags = "-O1 -Wall -Wextra -Werror".split()
    subprocess.run([compiler, *flags, "-o", f"{folder.name}/meter", f"{HERE}/meter.c"], check=True)
    return f"{folder.name}/meter"


def measured(words, output=subprocess.DEVNULL, limit=resource.RLIM_INFINITY, **how):
    """The processor seconds of a run, the megabytes, its exit status and what it said of faults.

    The run has a limit of processor seconds. A negative status is the signal that ended it."""
    before = lambda: resource.setrlimit(resource.RLIMIT_CPU, (limit, limit))
    how |= {"stdout": output, "stderr": subprocess.PIPE, "preexec_fn": before}
    ran = subprocess.run([meter(), *words], **how)
    *said, last = ran.stderr.decode(errors="replace").splitlines()
    seconds, memory, status = last.split()
    return float(seconds), int(memory) / 1024, int(status), "\n".join(said)
