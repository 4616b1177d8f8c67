#!/usr/bin/env bash
# The whole gate: each edit still fits, every proof, must-fail edit and test by `rt ci`, a wrong body of each public function, over
# the libraries that `rt ci` has built, how wrong bodies are chosen and tried, what only a process can show, the hull's package by
# itself, the kubectl plugin, completions and man page, the page in a browser, lines as tables and as JSON, what make dist packs,
# random matrices, universes, rules, members of groups, answers of why not, changes, powers and paths, and audit logs, bad documents,
# refused memory, reads and writes, and each public call by itself. The last line counts all of it, as `N passed, M failed`. Above it stands what the
# gate took; if a test skipped something that this machine lacks, a line between the two says what.
set -u
cd "$(dirname "$0")/.."
log=$(mktemp)
trap 'rm -f "$log"' EXIT
passed=0
failed=0
skipped=

# Runs a command and adds what its last line counts, and what the line before says that it skipped; a command that ends without
# a last line of that form has failed.
counted() {
    "$@" 2>&1 | tee "$log"
    if [[ $(tail -n 1 "$log") =~ ^([0-9]+)\ passed,\ ([0-9]+)\ failed$ ]]; then
        passed=$((passed + BASH_REMATCH[1]))
        failed=$((failed + BASH_REMATCH[2]))
    else
        failed=$((failed + 1))
    fi
    local said
    said=$(tail -n 2 "$log" | sed -n 's/^skipped: //p')
    skipped=$skipped${said:+; $said}
}

# One check a processor, where there is memory for that many: by itself rt also spreads a check over processors that are idle, which
# ends it sooner but takes more of their time in all.
processors=$(nproc)
if [ "$(awk '/^MemAvailable/ { print int($2 / 4000000) }' /proc/meminfo)" -ge "$processors" ]; then
    export RT_JOBS="${RT_JOBS:-$processors}"
fi

# Puts into `spent` the processor minutes of all that this shell has waited for. They are in the second line of `times`: user and
# system, each as MINUTESmSECONDSs.
measure() {
    times >"$log"
    spent=$(awk -F '[ ms]+' 'NR == 2 { printf "%.1f", $1 + $3 + ($2 + $4) / 60 }' "$log")
}

counted python3 tests/edits.py
counted rt ci
measure
proving=$spent
counted python3 tools/wrong_bodies.py --chosen
measure
refusing=$spent
counted python3 tests/chosen_edits.py
counted python3 tests/program.py
counted python3 tests/hull.py
counted python3 tests/plugin.py
counted python3 tests/shells.py
counted python3 tests/rbacaudit_page.py
counted python3 tests/show.py
counted python3 tests/dist.py
counted python3 tests/matrix_pages.py
counted python3 tests/universe.py
counted python3 tests/rules.py
counted python3 tests/groups.py
counted python3 tests/why_not.py
counted python3 tests/diff.py
counted python3 tests/paths.py
counted python3 tests/unused.py
counted python3 tests/least.py
counted python3 tests/memory.py
counted python3 tests/fuzz.py 1 2000
counted python3 tests/calls.py --once

measure
echo "took $spent processor minutes in $((SECONDS / 60)) minutes on $processors processors; $proving were up to the end of rt ci," \
    "and $refusing up to the end of the wrong bodies"
[ -z "$skipped" ] || echo "skipped: ${skipped#; }"
echo "$passed passed, $failed failed"
[ "$failed" -eq 0 ]
