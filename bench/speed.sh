#!/bin/bash
# Measures this library beside the Rust crate jsonc-parser 0.34.0, and writes the figures into docs/proofs/SPEED.md.
#
# usage: bench/speed.sh FOLDER [ROUNDS]
#
# FOLDER is that crate's sources, with its src/. Needs cargo (edition 2024), cc, python3 and, the first time,
# apt-get with Debian's librust-indexmap-dev. All that is built for it goes to ${SPEED_WORK:-/tmp/jsonc-speed}.
set -e
[ -f "$1/src/lib.rs" ] || { sed -n '4,7s/^# \?//p' "$0"; exit 2; }
crate=$(realpath "$1")
top=$(realpath "$(dirname "$0")/..")
work=${SPEED_WORK:-/tmp/jsonc-speed}
mkdir -p "$work/packages" "$work/theirs/.cargo" "$work/crate" "$work/documents"

# The crate's one dependency, unpacked and not installed. Which of these packages there are depends on the release.
if [ ! -d "$work/unpacked" ]; then
    (cd "$work/packages" && for package in indexmap hashbrown equivalent autocfg; do
        apt-get download "librust-$package-dev" || true
    done)
    for package in "$work"/packages/*.deb; do dpkg -x "$package" "$work/unpacked"; done
fi

# The crate under a manifest of our own, with the features that keep order and make documents.
ln -sfn "$crate/src" "$work/crate/src"
cat > "$work/crate/Cargo.toml" <<MANIFEST
[package]
name = "jsonc-parser"
version = "0.34.0"
edition = "2024"
[features]
default = ["cst", "preserve_order"]
cst = []
preserve_order = []
[dependencies]
indexmap = "*"
[lints.rust]
unexpected_cfgs = "allow"
MANIFEST
cat > "$work/theirs/Cargo.toml" <<MANIFEST
[package]
name = "theirs"
version = "0.0.0"
edition = "2024"
[[bin]]
name = "theirs"
path = "$top/bench/speed/main.rs"
[dependencies]
jsonc-parser = { path = "$work/crate" }
MANIFEST
cat > "$work/theirs/.cargo/config.toml" <<CONFIG
[source.crates-io]
replace-with = "debian"
[source.debian]
directory = "$work/unpacked/usr/share/cargo/registry"
CONFIG
(cd "$work/theirs" && cargo build --release --offline --quiet)
cc -O2 -shared -fPIC -o "$work/peak.so" "$top/bench/speed/peak.c"

# Ours is the program that users would install.
(cd "$top/crates/jsonc_speed" && rt run -- nothing 0 < stdin > /dev/null)

ours=$top/crates/jsonc_speed/out/jsonc_speed
theirs=$work/theirs/target/release/theirs
python3 "$top/bench/speed/lint.py" "$ours" "$work/documents" ${2:+"$2"}
python3 "$top/bench/speed/edits.py" "$ours" "$theirs" "$work/documents" ${2:+"$2"}
exec python3 "$top/bench/speed/measure.py" "$ours" "$theirs" "$work/peak.so" "$work/documents" ${2:+"$2"}
