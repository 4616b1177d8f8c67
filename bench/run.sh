#!/usr/bin/env bash
# Measures the built program on generated exports, beside reading and dropping the same JSON alone.
# `make build` builds the program.
set -eu
cd "$(dirname "$0")"
. ./common.sh

# The least processor time of seven runs of a command, in milliseconds.
least() {
    python3 least.py 7 "$@"
}

# The time of `can-i` on an export, in milliseconds.
ask() {
    least "$audit" can-i --as nobody@example.com -A get pods "$1"
}

# One line for an export: its size, the times of JSON alone and of four commands, and the ratio of can-i to JSON alone.
measure() {
    local name=$1 file=$2
    local json answer
    json=$(least "$alone" "$file")
    answer=$(ask "$file")
    printf '%-44s %9d bytes  JSON alone %5d ms  can-i %5d ms  who-can %5d ms  lint %5d ms  powers %5d ms  ratio %s\n' \
        "$name" "$(stat -c %s "$file")" "$json" "$answer" "$(least "$audit" who-can -A get pods "$file")" \
        "$(least "$audit" lint "$file")" "$(least "$audit" powers "$file")" "$(python3 -c "print('%.2f' % ($answer / max(1, $json)))")"
}

# One line for reading an export: processor time and memory of `can-i`, of JSON alone, and of the typed Rust program where Debian's
# crates are installed.
measure_reading() {
    local name=$1 file=$2
    printf '%-44s can-i %5d ms %4d MB  JSON alone %5d ms %4d MB' "$name" \
        "$(ask "$file")" "$(($(python3 least.py --memory "$audit" can-i --as nobody@example.com -A get pods "$file") / 1024))" \
        "$(least "$alone" "$file")" "$(($(python3 least.py --memory "$alone" "$file") / 1024))"
    if [ -x "$room/typed_reader" ]; then
        printf '  typed %5d ms %4d MB' "$(least "$room/typed_reader" "$file" nobody@example.com default get pods)" \
            "$(($(python3 least.py --memory "$room/typed_reader" "$file" nobody@example.com default get pods) / 1024))"
    fi
    echo
}

# One line for a matrix over an export and a universe: its requests, and its time for the first binding and for every one.
measure_matrix() {
    local name=$1 file=$2 universe=$3 requests=$4
    printf '%-44s %9d requests  matrix %7d ms  --every %7d ms\n' "$name" "$requests" \
        "$(least "$audit" matrix "$file" "$universe")" "$(least "$audit" matrix --every "$file" "$universe")"
}

# One line for the whole matrix that follows from an export: its rows, time and memory, and rows a second beside loading. Options of
# `matrix` follow the file.
measure_whole() {
    local name=$1 file=$2
    local rows whole memory
    shift 2
    rows=$(($("$audit" matrix "$@" "$file" | wc -l) - 1))
    whole=$(python3 least.py 3 "$audit" matrix "$@" "$file")
    memory=$(python3 least.py --memory "$audit" matrix "$@" "$file")
    printf '%-44s %9d rows  matrix %7d ms  %d rows a second  %d MB\n' \
        "$name" "$rows" "$whole" "$((rows * 1000 / (whole - $(ask "$file") + 1)))" "$((memory / 1024))"
}

# One line for pages of 1,000 rows of the whole matrix: the first, and one after a late key.
measure_pages() {
    local name=$1 file=$2
    local late
    late=$(printf '1\tu:z\t-\tget\t-\tpods\t-' | base64 | tr '/+' '_-' | tr -d '=\n')
    printf '%-44s can-i %5d ms  first page %5d ms  late page %5d ms\n' "$name" "$(ask "$file")" \
        "$(least "$audit" matrix --limit 1000 "$file")" "$(least "$audit" matrix --limit 1000 --after "$late" "$file")"
}

# One line for what a change does to an export: how many lines, the time and memory, and the ratio to can-i over the export. The
# options that tell the change follow the file.
measure_diff() {
    local name=$1 before=$2
    local lines answer changes
    shift 2
    lines=$("$audit" diff --before "$before" "$@" | wc -l)
    answer=$(ask "$before")
    changes=$(least "$audit" diff --before "$before" "$@")
    printf '%-44s %9d lines  can-i %5d ms  diff %5d ms %4d MB  ratio %s\n' "$name" "$lines" "$answer" "$changes" \
        "$(($(python3 least.py --memory "$audit" diff --before "$before" "$@") / 1024))" \
        "$(python3 -c "print('%.2f' % ($changes / max(1, $answer)))")"
}

# One line for the universe of an export: the lines of its document, the time beside can-i, and the memory.
measure_universe() {
    local name=$1 file=$2
    printf '%-44s %9d lines  can-i %5d ms  universe %5d ms %4d MB\n' "$name" "$("$audit" universe "$file" | wc -l)" "$(ask "$file")" \
        "$(least "$audit" universe "$file")" "$(($(python3 least.py --memory "$audit" universe "$file") / 1024))"
}

# One line for whom somebody comes to, or who comes to a request: how many lines, the time beside can-i, the ratio of both, and the
# memory. The command and its words follow the file.
measure_paths() {
    local name=$1 file=$2 answer paths
    shift 2
    answer=$(ask "$file")
    paths=$(least "$audit" "$@" "$file")
    printf '%-44s %9d lines  can-i %5d ms  %s %5d ms %4d MB  ratio %s\n' "$name" "$("$audit" "$@" "$file" | wc -l)" "$answer" "$1" "$paths" \
        "$(($(python3 least.py --memory "$audit" "$@" "$file") / 1024))" "$(python3 -c "print('%.2f' % ($paths / max(1, $answer)))")"
}

# One line for each shape of real clusters: its rows, the time of `matrix` over it, and the ratio to can-i over an export; and the rows
# and the time with --once.
measure_shapes() {
    local file=$1 universe name rows answer whole left once
    answer=$(ask "$file")
    mkdir "$room/shapes"
    (cd "$room/shapes" && python3 "$OLDPWD/generate_scale.py")
    for universe in "$room"/shapes/*.universe.json; do
        name=${universe%.universe.json}
        rows=$(($("$audit" matrix "$name.json" "$universe" | wc -l) - 1))
        whole=$(python3 least.py 3 "$audit" matrix "$name.json" "$universe")
        left=$(($("$audit" matrix --once "$name.json" "$universe" | wc -l) - 1))
        once=$(python3 least.py 3 "$audit" matrix --once "$name.json" "$universe")
        printf '%-44s %9d rows  can-i %5d ms  matrix %5d ms  ratio %s  --once %9d rows %5d ms\n' "${name##*/}" "$rows" "$answer" "$whole" \
            "$(python3 -c "print('%.2f' % ($whole / max(1, $answer)))")" "$left" "$once"
    done
}

# One line for a shape of wide rules: its time and memory, and the ratio to can-i over an export, whose time is given.
measure_wide() {
    local answer=$1 shape=$2 count=$3 file=$room/$2-$3 took
    local asked=("$audit" diff --before "$file.before.json" --after "$file.after.json")
    case $shape in
        lint-*) asked=("$audit" lint "$file.json") ;;
        all-select) asked=("$audit" can-i --as nobody@example.com -A get pods "$file.json") ;;
        words | urls | spread) asked=("$audit" matrix "$file.json") ;;
    esac
    python3 generate_wide.py "$shape" "$count" "$room"
    took=$(python3 least.py 3 "${asked[@]}")
    printf '%-44s can-i %5d ms  it takes %6d ms %5d MB  ratio %s\n' "$shape $count" "$answer" "$took" \
        "$(($(python3 least.py --memory "${asked[@]}") / 1024))" "$(python3 -c "print('%.2f' % ($took / max(1, $answer)))")"
    rm "$file".*
}

# One line for an audit log: its size, how many lines say what is unused, the time and memory of `unused`, and of `can-i` and of JSON
# alone over the same events in lists, with the ratios to both. The lists follow the log.
measure_log() {
    local name=$1 file=$2 log=$3 lines unused answer json=0 list
    shift 3
    lines=$("$audit" unused --log "$log" "$file" | wc -l)
    unused=$(python3 least.py 3 "$audit" unused --log "$log" "$file")
    answer=$(python3 least.py 3 "$audit" can-i --as nobody@example.com -A get pods "$file" "$@")
    for list in "$@"; do
        json=$((json + $(python3 least.py 3 "$alone" "$list")))
    done
    printf '%-44s %9d bytes %7d lines  unused %6d ms %4d MB  can-i %6d ms %4d MB  JSON alone %6d ms  ratios %s\n' "$name" \
        "$(stat -c %s "$log")" "$lines" "$unused" "$(($(python3 least.py --memory "$audit" unused --log "$log" "$file") / 1024))" "$answer" \
        "$(($(python3 least.py --memory "$audit" can-i --as nobody@example.com -A get pods "$file" "$@") / 1024))" "$json" \
        "$(python3 -c "print('%.2f %.2f' % ($unused / max(1, $answer), $unused / max(1, $json)))")"
}

# One line for lint on a role of many rules, and for its aggregated roles alone, beside can-i.
measure_lint() {
    local name=$1 file=$2
    printf '%-44s can-i %5d ms  lint %5d ms  --only L6 %5d ms\n' "$name" "$(ask "$file")" "$(least "$audit" lint "$file")" \
        "$(least "$audit" lint --only L6 "$file")"
}

for size in "1000 4000 100" "5000 20000 300" "10000 40000 500"; do
    python3 generate_export.py $size 1 "$room/export.json" > /dev/null
    measure "$size roles, bindings, namespaces" "$room/export.json"
done
typed_reader/build.sh "$room/typed_reader" 2> /dev/null || echo 'the typed Rust program is left out: its crates are not installed'
python3 generate_export.py 10000 40000 400 7 "$room/export.json" > /dev/null
measure_reading "reading, 10000 roles, 40000 bindings" "$room/export.json"
measure_universe "universe, 10000 roles, 40000 bindings" "$room/export.json"
who=$("$audit" powers "$room/export.json" | awk -F '\t' '$1 == "run" && $2 ~ /^u:/ && $3 != "*" && !who {who = $2} END {print who}')
measure_paths "paths, 10000 roles, 40000 bindings" "$room/export.json" paths "$who"
measure_paths "who-can --indirect, 10000 roles" "$room/export.json" who-can --indirect -A '*' '*.*'
for size in "50000 1000 100" "100000 1000 300"; do
    python3 generate_runners.py $size "$room/runners.json"
    measure_paths "paths, accounts, namespaces, everywhere $size" "$room/runners.json" paths u:system:serviceaccount:ns00000:account-001000
    measure_paths "who-can --indirect, the same $size" "$room/runners.json" who-can --indirect -A '*' '*.*'
done
measure_diff "diff, equal exports" "$room/export.json" --after "$room/export.json"
python3 change_export.py bindings 100 "$room/export.json" "$room/changed.json"
measure_diff "diff, a hundred changed bindings" "$room/export.json" --after "$room/changed.json"
measure_diff "diff, the same put over" "$room/export.json" --with "$room/changed.json"
measure_diff "diff, all taken away before" "$room/export.json" --without "$room/export.json" --with "$room/changed.json"
measure_shapes "$room/export.json"
answer=$(ask "$room/export.json")
python3 generate_export.py 2000 8000 421 7 "$room/cluster.json" > /dev/null
echo '{"apiVersion": "rbacaudit/v1", "kind": "Universe", "names": [""]}' > "$room/universe.json"
measure_whole "no repeats, 2000 roles, 8000 bindings" "$room/cluster.json" --once "$room/universe.json"
for shape in "product 1000" "product 2000" "verb 1000" "verb 2000" "gained 800" "gained 1600" "names 20000" "names 40000" \
    "name-rules 500" "name-rules 1000" "subjects 25" "subjects 50" "gathered 150" "gathered 300" "lint-names 32000" \
    "lint-names 64000" "lint-roles 200" "lint-roles 400" "all-select 20000" "all-select 40000" "words 20000" "words 40000" "urls 20000" \
    "urls 40000" "spread 250" "spread 500" "spread 1000" "spread 2000"; do
    measure_wide "$answer" $shape
done
python3 change_export.py names "$room/export.json" "$room/changed.json"
measure_diff "diff, each binding renamed" "$room/export.json" --after "$room/changed.json"
python3 generate_export.py 4000 16000 200 9 "$room/export.json" > /dev/null
python3 annotate_export.py "$room/export.json" "$room/annotated.json"
measure_reading "reading, 4000 and 16000, annotated" "$room/annotated.json"
python3 generate_aggregated.py 5000 500 4 "$room/export.json"
measure "5000 cluster roles, 500 aggregated" "$room/export.json"
for size in "1000 1000" "100 10000" "10 100000"; do
    python3 generate_grants.py $size "$room/export.json"
    measure "a million grants: $size rules, bindings" "$room/export.json"
done
for size in "200 800 20" "1000 4000 100"; do
    python3 generate_export.py $size 1 "$room/export.json" > /dev/null
    requests=$(python3 generate_universe.py "$room/export.json" 50 5 "$room/universe.json")
    measure_matrix "matrix, $size roles, bindings, namespaces" "$room/export.json" "$room/universe.json" "$requests"
done
python3 generate_export.py 200 800 20 1 "$room/export.json" > /dev/null
measure_whole "whole matrix, 200 roles, 800 bindings" "$room/export.json"
measure_whole "whole matrix, every granting binding" "$room/export.json" --every
measure_whole "whole matrix, no repeats" "$room/export.json" --once
python3 generate_export.py 1000 4000 100 1 "$room/export.json" > /dev/null
measure_pages "pages, 1000 roles, 4000 bindings" "$room/export.json"
for size in "4 20 60" "40 20 60" "4 200 60" "4 20 600"; do
    python3 generate_idle.py $size "$room/idle.json"
    printf '%-44s matrix %5d ms\n' "verbs, namespaces, resources $size" "$(least "$audit" matrix "$room/idle.json")"
done
python3 generate_export.py 1000 4000 100 1 "$room/export.json" > /dev/null
for distinct in 1000 20000 100000; do
    python3 generate_log.py "$room/export.json" 200 "$distinct" 1 "$room/audit.log" "$room/events" > /dev/null
    measure_log "a log of 200 MB, $distinct requests" "$room/export.json" "$room/audit.log" "$room"/events-*.json
    rm "$room/audit.log" "$room"/events-*.json
done
for kind in different equal subresources urls prefixes; do
    python3 generate_rules.py "$kind" 20000 "$room/rules.json"
    measure_lint "lint, one role of 20000 rules: $kind" "$room/rules.json"
done
