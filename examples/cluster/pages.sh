#!/usr/bin/env bash
# Writes the whole matrix of the given files, page by page; LIMIT is the most rows of a page.
set -eu
page=$(mktemp)
trap 'rm -f "$page"' EXIT
after=
while :; do
    rbacaudit matrix --limit "${LIMIT:-100000}" ${after:+--after "$after"} "$@" > "$page"
    sed '$d' "$page"
    last=$(tail -n 1 "$page")
    [ "$last" = end ] && break
    after=${last#next$'\t'}
done
echo end
