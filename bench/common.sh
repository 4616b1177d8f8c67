# For the scripts beside it, from this folder: the program, a folder that is removed at the end, and the yardstick, built in it.
audit=../crates/rbacaudit/out/rbacaudit
room=$(mktemp -d)
trap 'rm -rf "$room"' EXIT
alone=$room/json_alone
json_alone/build.sh "$alone"
