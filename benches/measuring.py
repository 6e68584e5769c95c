"""Plain Rust built, and programs timed and counted: what benches/run and benches/trace share."""

import re
import resource
import subprocess
from pathlib import Path

TOP = Path(__file__).resolve().parent.parent
FLAGS = ('--edition', '2021', '-C', 'opt-level=3', '-C', 'target-cpu=x86-64', '-C', 'panic=abort')


def build_plain(name):
    """The program target/benches/NAME of benches/NAME.rs."""
    path = TOP / 'target/benches' / name
    path.parent.mkdir(parents=True, exist_ok=True)
    subprocess.run(['rustc', *FLAGS, '-o', path, TOP / f'benches/{name}.rs'], check=True)


def build_proved(*names):
    """The programs target/bin/NAME."""
    subprocess.run([TOP / 'tools/build', *names], check=True)


def once(command, path, output=subprocess.PIPE):
    """What the command prints for an input, and its processor time in seconds, the user's and the system's."""
    before = resource.getrusage(resource.RUSAGE_CHILDREN)
    with open(path, 'rb') as job:
        printed = subprocess.run(command, stdin=job, stdout=output, check=True).stdout
    after = resource.getrusage(resource.RUSAGE_CHILDREN)
    return printed, after.ru_utime - before.ru_utime, after.ru_stime - before.ru_stime


def counted(command, path):
    """The instructions that the command takes for an input."""
    with open(path, 'rb') as job:
        said = subprocess.run(['valgrind', '--tool=callgrind', '--callgrind-out-file=/dev/null', *command], stdin=job,
                              stdout=subprocess.DEVNULL, stderr=subprocess.PIPE, check=True).stderr
    return int(re.search(rb'Collected : (\d+)', said)[1])
