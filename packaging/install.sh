#!/bin/sh
# Installs rbacaudit from the folder of this script, which needs nothing else:
#   PREFIX=~/.local sh install.sh    (without PREFIX: below /usr/local)
# DESTDIR, for those who make packages, stands before PREFIX.
set -eu
cd "$(dirname "$0")"
to=${DESTDIR-}${PREFIX:-/usr/local}

# Puts a file with a mode in its place below $to. A program that runs meanwhile keeps its old file.
put() {
    mkdir -p "$to/${3%/*}"
    install -m "$1" "$2" "$to/$3"
}

for file in bin/*; do
    put 755 "$file" "$file"
done
find lib share -type f | while IFS= read -r file; do
    put 644 "$file" "$file"
done
find PROVED.txt README.md bench docs examples -type f | while IFS= read -r file; do
    put 644 "$file" "share/doc/rbacaudit/$file"
done
# (compiled, the plugin starts sooner, also for who may not write there)
python3 -m compileall -q "$to/lib/rbacaudit" >/dev/null 2>&1 || true
echo "rbacaudit is installed: $to/bin/rbacaudit"
