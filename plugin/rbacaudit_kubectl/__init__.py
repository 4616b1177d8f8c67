"""rbacaudit's hull: the kubectl plugin, rbacaudit-show and rbacaudit-page."""

import sys

VERSION = '0.1.0'
if sys.version_info < (3, 9):
    sys.stderr.write('rbacaudit: this needs Python 3.9 or later, and python3 is %s\n' % sys.version.split()[0])
    sys.exit(2)
