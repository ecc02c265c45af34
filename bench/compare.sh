#!/bin/bash
# Compares this library with the Rust crate jsonc-parser 0.34.0 in one process, case by case.
#
# usage: bench/compare.sh FOLDER [COUNT [SEED]]
#
# FOLDER is that crate's sources, with its src/. COUNT is a million if left out, and takes some minutes. What differs is
# printed as a case of the bench, and the status is 1 then. It proves and builds the two static libraries first, unless
# JSONC_C and JSONC_COMPARE name the folders of their archives. Needs cargo (edition 2024), gcc and, the first time,
# apt-get with Debian's librust-indexmap-dev. All that is built for it goes to ${COMPARE_WORK:-/tmp/jsonc-compare}.
set -e
[ -f "$1/src/lib.rs" ] || { sed -n '4,9s/^# \?//p' "$0"; exit 2; }
crate=$(realpath "$1")
top=$(realpath "$(dirname "$0")/..")
work=${COMPARE_WORK:-/tmp/jsonc-compare}
shift
mkdir -p "$work/packages" "$work/crate" "$work/program/.cargo"

# The crate's one dependency, unpacked and not installed. Which of these packages there are depends on the release.
if [ ! -d "$work/unpacked" ]; then
    (cd "$work/packages" && for package in indexmap hashbrown equivalent autocfg; do
        apt-get download "librust-$package-dev" || true
    done)
    for package in "$work"/packages/*.deb; do dpkg -x "$package" "$work/unpacked"; done
fi

# The crate under a manifest of our own, with the features that keep order and make documents.
ln -sfn "$crate/src" "$work/crate/src"
cat > "$work/crate/Cargo.toml" <<MANIFEST
[package]
name = "jsonc-parser"
version = "0.34.0"
edition = "2024"
[features]
default = ["cst", "preserve_order"]
cst = []
preserve_order = []
[dependencies]
indexmap = "*"
[lints.rust]
unexpected_cfgs = "allow"
MANIFEST
cat > "$work/program/Cargo.toml" <<MANIFEST
[package]
name = "compare"
version = "0.0.0"
edition = "2024"
[[bin]]
name = "compare"
path = "$top/bench/compare/main.rs"
[[bin]]
name = "times"
path = "$top/bench/compare/times.rs"
[dependencies]
jsonc = { path = "$top/rust/jsonc" }
jsonc-parser = { path = "$work/crate" }
MANIFEST
cat > "$work/program/.cargo/config.toml" <<CONFIG
[source.crates-io]
replace-with = "debian"
[source.debian]
directory = "$work/unpacked/usr/share/cargo/registry"
CONFIG

# The archives, and the kit's calls of the C library's allocator.
[ -n "$JSONC_C" ] || (cd "$top/crates/jsonc_c" && rt lib --jobs 1 > /dev/null)
[ -n "$JSONC_COMPARE" ] || (cd "$top/crates/jsonc_compare" && rt lib --jobs 1 > /dev/null)
export JSONC_C=${JSONC_C:-$top/crates/jsonc_c/out}
export RATTLE_C=${RATTLE_C:-$(dirname "$(rt doc)")/c}
answers=${JSONC_COMPARE:-$top/crates/jsonc_compare/out}/libjsonc_compare.a
(cd "$work/program" && RUSTFLAGS="-C link-arg=$answers -C link-arg=$RATTLE_C/liblibc_c.a" cargo build --release --offline --quiet)
exec "$work/program/target/release/${COMPARE_PROGRAM:-compare}" "$@"
