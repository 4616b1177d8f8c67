"""Splits the principals of a Universe document into several documents, so that a matrix can be made in slices.

    rbacaudit universe FILE.. | python3 slices.py COUNT FOLDER

writes FOLDER/1.universe to FOLDER/COUNT.universe. Together they have the principals of the document, in its order, which is
that of a matrix. So the matrices of the slices, joined in this order, are the whole. If FILEs name a user several times, give
the user's entries to one slice.
"""

import json
import os
import sys


def main(count, folder):
    principals, count = json.load(sys.stdin)['principals'], int(count)
    os.makedirs(folder, exist_ok=True)
    for i in range(count):
        part = principals[len(principals) * i // count:len(principals) * (i + 1) // count]
        with open(os.path.join(folder, '%d.universe' % (i + 1)), 'w', encoding='utf-8') as file:
            json.dump({'apiVersion': 'rbacaudit/v1', 'kind': 'Universe', 'principals': part}, file, indent=1)


if __name__ == '__main__':
    main(*sys.argv[1:])
