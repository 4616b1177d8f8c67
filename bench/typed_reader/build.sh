#!/usr/bin/env bash
# Builds the typed reader as the program FILE, of Debian's crates: build.sh FILE
# It fails where they aren't installed: librust-serde-json-dev and librust-serde-derive-dev, and cargo.
set -eu
here=$(cd "$(dirname "$0")" && pwd)
room=$(mktemp -d)
trap 'rm -rf "$room"' EXIT

cp -r "$here/Cargo.toml" "$here/src" "$room"
mkdir "$room/.cargo"
cat > "$room/.cargo/config.toml" <<'END'
[source.crates-io]
replace-with = "debian"

[source.debian]
directory = "/usr/share/cargo/registry"
END
(cd "$room" && cargo build --release --offline --quiet)
cp "$room/target/release/typed_reader" "$1"
