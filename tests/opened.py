"""A page of rbacaudit-page that is open in a browser: what is clicked and seen of it."""

import contextlib
import csv
import json
import os
import re
import time

import browser
from written import same

LABELS = ['Who', 'Namespace', 'Verb', 'API group', 'Resource or URL', 'Name', 'Binding']
COUNTS = ('[...document.querySelectorAll(".tiles li")].map(it => '
          '[...it.firstChild.children].map(part => part.textContent))')


class Shown:
    """A page in the browser, and what is seen of it."""

    def __init__(self, it, room, name, text):
        self.it, self.room, self.name = it, room, name
        self.path = os.path.join(room, name + '.html')
        with open(self.path, 'w', encoding='utf-8') as file:
            file.write(text)
        self.seconds = it.open(self.path)

    def go(self, address):
        self.it.do('location.hash = %s' % json.dumps(address))
        self.it.frame()

    def texts(self, selector):
        return self.it.do('[...document.querySelectorAll(%s)].map(it => it.textContent)'
                          % json.dumps(selector))

    def text(self, selector):
        return (self.texts(selector) or [''])[0]

    def cells(self, within='.sheet'):
        """The texts of the cells of each row of a table."""
        return self.it.do('[...document.querySelectorAll(%s)].filter(row => row.className !== '
                          '"spacer").map(row => [...row.cells]'
                          '.filter(cell => cell.className !== "gap").map(cell => '
                          'cell.textContent))' % json.dumps(within + ' tbody tr'))

    def click(self, script):
        """A real click into the middle of what the script finds."""
        at = self.it.do('{const box = (%s).getBoundingClientRect(); [box.x + box.width / 2, '
                        'box.y + box.height / 2]}' % script)
        self.it.click(*at)

    def click_on(self, selector):
        self.click('document.querySelector(%s)' % json.dumps(selector))

    def type_into(self, selector, text):
        self.click_on(selector)
        self.it.type(text)

    def hash(self):
        return self.it.do('decodeURIComponent(location.hash.replaceAll("+", " "))')

    def saved(self, name='rows.csv'):
        """What a click on Save writes: its rows, as the matrix prints them."""
        heads, *rows = csv.reader(self.save(name).removeprefix('\ufeff').splitlines())
        same('%s: the first line' % name, heads[-7:], LABELS)
        # (a semicolon is saved as an escape, which no other field of these pages has)
        return ['\t'.join(re.sub("^'(?=[=+@＝＋－＠-])", '', cell).replace('\\x3b', ';') or '-' for cell in row) for row in rows]

    def save(self, name):
        path = os.path.join(self.room, name)
        with contextlib.suppress(FileNotFoundError):
            os.remove(path)
        self.click('[...document.querySelectorAll(".tools button")].find(it => it.textContent '
                   '=== "Save as CSV")')
        ends = time.monotonic() + browser.PATIENCE
        while not os.path.exists(path) and time.monotonic() < ends:
            time.sleep(0.02)
        with open(path, encoding='utf-8', newline='') as file:
            return file.read()

    def is_quiet(self):
        """No fault, no dialog, and no request but that of the file itself."""
        same('%s: no message of the browser' % self.name, self.it.messages, [])
        same('%s: no request' % self.name,
             [url for url in self.it.requests if not url.startswith('blob:')],
             ['file://' + self.path][:1])
