"""The least processor time of some runs of a command, in milliseconds; the most memory of one run, in KiB; or both of one run that is
ended after so many seconds of processor time, in words.

    python3 least.py RUNS|--memory|--both=SECONDS COMMAND [WORD]..
"""

import resource
import signal
import subprocess
import sys


def used():
    return resource.getrusage(resource.RUSAGE_CHILDREN)


def time_of(command, limit=resource.RLIM_INFINITY):
    """The processor seconds of a run, and how it ended."""
    before = used()
    ended = subprocess.run(command, stdout=subprocess.DEVNULL, check=False,
                           preexec_fn=lambda: resource.setrlimit(resource.RLIMIT_CPU, (limit, resource.RLIM_INFINITY)))
    after = used()
    return after.ru_utime + after.ru_stime - before.ru_utime - before.ru_stime, ended.returncode


def both(command, limit):
    seconds, status = time_of(command, limit)
    if status == -signal.SIGXCPU:
        return 'over %d s' % limit
    return '%.1f s, %d MB' % (seconds, used().ru_maxrss / 1024)


def main(runs, command):
    if runs.startswith('--both='):
        print(both(command, int(runs.removeprefix('--both='))))
    elif runs == '--memory':
        time_of(command)
        print(used().ru_maxrss)
    else:
        print(round(1000 * min(time_of(command)[0] for _ in range(int(runs)))))


main(sys.argv[1], sys.argv[2:])
