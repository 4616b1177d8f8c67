"""How large pages are, how long they take to make and to open, and how much memory that takes: of an export of 421 namespaces, and of ten million
rows of 60,000 bindings.

    make build
    python3 bench/page.py
"""

import os
import subprocess
import sys
import tempfile
import time

HERE = os.path.dirname(os.path.abspath(__file__))
sys.path.append(os.path.join(HERE, '..', 'tests'))

import browser  # noqa: E402
from shown_large import company_rows  # noqa: E402
from written import FILTER  # noqa: E402

# (by a process of its own, since a child's memory counts from its fork on)
SPENT = ('import os, sys; used = os.wait4(os.spawnv(os.P_NOWAIT, sys.argv[1], sys.argv[1:]), 0)[2]; '
         'print(used.ru_utime + used.ru_stime, used.ru_maxrss)')
VIEWS = ('who', 'what', 'watch', 'rows', 'rows?q=secret', 'rows?watch=secrets', 'rows?watch=everything', 'find?q=a')


def company(room):
    """The rows of an export of 421 namespaces, as a file, and what rbacaudit-page is told beside them."""
    rows, types = company_rows(room)
    with open(os.path.join(room, 'types'), 'w', encoding='utf-8') as file:
        file.write(''.join('%s\t%s\n' % pair for pair in sorted(types)))
    with open(os.path.join(room, 'rows'), 'w', encoding='utf-8') as file:
        file.write(''.join(row + '\n' for row in [*rows, 'end']))
    return 'team-0042', ['--namespaced', os.path.join(room, 'types')]


def bindings(room):
    """Ten million rows of 60,000 bindings in one namespace."""
    with open(os.path.join(room, 'rows'), 'wb') as file:
        subprocess.run([sys.executable, os.path.join(HERE, 'generate_rows.py'), '60000', '2000', '167'], stdout=file, check=True)
    return 'big', []


def measured(it, room, name, kind):
    """A line of the table."""
    place, words = kind(room)
    path = os.path.join(room, name + '.html')
    with open(os.path.join(room, 'rows'), 'rb') as rows:
        used = subprocess.run([sys.executable, '-c', SPENT, sys.executable, FILTER, *words, '--output', path], stdin=rows,
                              stdout=subprocess.PIPE, check=True).stdout.split()
    opened = min(it.open(path) for _ in range(3))
    count = it.do('ROWS.length')
    times = {}
    for view in (*VIEWS, 'who?ns=' + place, 'what?ns=' + place, 'watch?ns=' + place, 'rows?namespace==' + place):
        began = time.monotonic()
        it.do('location.hash = "#%s"' % view)
        it.frame()
        times[view] = time.monotonic() - began
    slowest = max(times, key=times.get)
    print('| %s | %s | %.1f MB | %.1f s, %d MB | %.2f s | %s: %.2f s | %d MB |' % (
        name, format(count, ','), os.path.getsize(path) / 1e6, float(used[0]), int(used[1]) // 1000, opened,
        slowest, times[slowest], it.memory() // 1_000_000), flush=True)


def main():
    print('| Page | Rows | Size | Made in | Opened in | Slowest view | Memory of the browser |')
    for name, kind in (('company', company), ('bindings', bindings)):
        with browser.browser() as it, tempfile.TemporaryDirectory() as room:
            measured(it, room, name, kind)


if __name__ == '__main__':
    main()
