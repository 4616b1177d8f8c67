#!/usr/bin/env bash
# Measures the built program on inputs that are made to hurt, beside reading and dropping the same JSON alone: processor time
# and the most memory of one run each. `make build` builds the program.
set -eu
cd "$(dirname "$0")"
. ./common.sh
cc -O2 generate_collisions.c -o "$room/collisions"
input=$room/hostile.json

# One line: an input's name and size, the time and memory of reading it, and those of a command over it. A run ends after 120 seconds.
measure() {
    local name=$1
    shift
    printf '%-52s %9d bytes  JSON alone %s  %s %s\n' "$name" "$(stat -c %s "$input")" \
        "$(python3 least.py --both=120 "$alone" "$input")" "$1" "$(python3 least.py --both=120 "$audit" "$@" "$input")"
}

hostile() {
    python3 generate_hostile.py "$1" "$input" "${@:2}"
}

# The same for what changes between two exports.
measure_pair() {
    local name=$1
    shift
    python3 generate_pair.py "$@" "$room/before.json" "$input"
    measure "$name" diff --before "$room/before.json" --after
}

for count in "100000 14" "500000 14"; do
    # shellcheck disable=SC2086
    "$room/collisions" $count | hostile collide
    measure "who-can, ${count% *} users whose keys collide" who-can -A get pods
    seq "${count% *}" | sed 's/^/user-of-/' | hostile collide
    measure "who-can, ${count% *} users with other names" who-can -A get pods
done
hostile ring 20000
measure "ring of 20000 aggregated roles" can-i --as kim -A get pods
for count in 10000 20000; do
    hostile all "$count"
    measure "$count cluster roles that all select all" can-i --as kim -A get pods
done
hostile steps 20000 30000
measure "20000 roles aggregated of 30000 plain ones" can-i --as kim -A get pods
hostile expressions 100000 100000
measure "a selector of 100000 expressions, 100000 roles" can-i --as kim -A get pods
hostile values 1000000 100000
measure "NotIn with 1000000 values, 100000 roles" can-i --as kim -A get pods
hostile labels 100000
measure "100000 matchLabels against as many labels" can-i --as kim -A get pods
hostile groups 1000000
measure "1000000 groups as subjects, a user of 2000 groups" can-i --as kim --groups "$(seq -s, 2000)" -A get pods
measure "the same, the rules of the user" rules --groups "$(seq -s, 2000)" u:kim
hostile names 5000 1000000
measure "5000 resources by one name of a megabyte" matrix
for count in 500 1000 2000; do
    hostile product "$count"
    measure "a rule of $count groups and as many resources" universe
    measure "the same" matrix
done
hostile bindings 60000
measure "60000 users by 60000 bindings" matrix --limit 1000
for size in "1250 0" "2500 0" "5000 0" "125 50" "250 50" "500 50"; do
    # shellcheck disable=SC2086
    hostile chain $size
    measure "${size% *} roles that bind one another in a chain, in ${size#* } namespaces" paths u:u
done
for count in 50 100 200; do
    hostile aggregates "$count" 50
    measure "$count aggregated roles that may bind one another, in 50 namespaces" paths u:u
done
for count in 1000 2000 4000; do
    hostile binders "$count"
    measure "$count users who may each bind as many roles by name" paths u:u0
    hostile imitators "$count"
    measure "$count users who may each impersonate all of them by name" paths u:u0
done
for count in 5000 10000 20000; do
    hostile clique "$count"
    measure "$count users and as many groups in one binding, who may impersonate anybody" who-can --indirect -A get gold
done
hostile nested 200000
measure "values nested to the limit" can-i --as kim -A get pods
hostile items 9000000
measure "9000000 items that are small objects" can-i --as kim -A get pods
hostile members 9000000
measure "an item of 9000000 small objects" can-i --as kim -A get pods
measure_pair "1000000 grants of 1000 users, bindings renamed" renamed 1000 1000 1000
measure_pair "1000000 grants of 10 users, bindings renamed" renamed 10 1000 1000
measure_pair "1000000 grants of one user, bindings renamed" renamed 1 1000 1000
measure_pair "1000000 grants of 100000 users, bindings renamed" renamed 100000 10 100000
measure_pair "40000 grants of one user, bindings renamed" renamed 1 10 4000
measure_pair "1000000 grants of 1000 users, subjects exchanged" exchanged 1000 1000 1000
measure_pair "1000000 grants of 10 users, subjects exchanged" exchanged 10 1000 1000
measure_pair "1000000 grants of 100000 users, subjects exchanged" exchanged 100000 10 100000
measure_pair "1000000 grants of 1000 users, rules reworded" reworded 1000 1000 1000
measure_pair "1000000 grants of 10 users, rules reworded" reworded 10 1000 1000
measure_pair "a rule of 100 verbs, resources and names, gained" words 100
