#!/usr/bin/env bash
# Builds the yardstick as the program FILE: build.sh FILE
# It is no part of what is proved here, so the gate, which reads each .rt file of this repository, doesn't see it: its source
# has another ending, and it is built in a repository of its own, in a folder that is gone afterwards.
set -eu
here=$(cd "$(dirname "$0")" && pwd)
room=$(mktemp -d)
trap 'rm -rf "$room"' EXIT

crate=$room/crates/json_alone
mkdir -p "$crate/src"
cp "$here/main.rt.txt" "$crate/src/main.rt"
cp "$here/../../HANDLES" "$room/"
echo 'json_alone: serde_json' > "$room/crates.txt"
echo '{}' > "$room/least.json"
(cd "$crate" && rt run -- "$room/least.json" > /dev/null)
cp "$crate/out/json_alone" "$1"
