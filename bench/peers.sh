#!/bin/bash
# Measures this library beside what else one would take, and prints the section Peers of docs/proofs/SPEED.md. Where the
# page has that section, it is written there too.
#
# usage: bench/peers.sh [ROUNDS]
#
# Needs g++, cargo (edition 2024), python3 and, the first time, apt-get with Debian's packages. A peer that cannot be built
# is passed over. All that is built for it goes to ${PEERS_WORK:-/tmp/jsonc-peers}.
set -e
shopt -s nullglob
top=$(realpath "$(dirname "$0")/..")
work=${PEERS_WORK:-/tmp/jsonc-peers}
mkdir -p "$work/packages" "$work/programs" "$work/documents" "$work/serde_json/.cargo" "$work/kit/crates/peer_json/src"

# The peers, unpacked and not installed. Which of these packages there are, and their libraries' numbers, depend on the release.
if [ ! -d "$work/unpacked" ]; then
    libraries=$(apt-cache depends libjsoncpp-dev libsimdjson-dev | sed -n 's/^ *Depends: \(lib[a-z]*json[a-z]*[0-9]\+\)$/\1/p')
    (cd "$work/packages" && for package in rapidjson libjsoncpp libsimdjson librust-{serde-json,serde,serde-core,itoa,ryu,memchr}; do
        apt-get download "$package-dev" || true
    done
    for package in $libraries; do apt-get download "$package" || true; done)
    for package in "$work"/packages/*.deb; do dpkg -x "$package" "$work/unpacked"; done
fi

# Builds a peer's program by a command, or tells that the peer is passed over.
build() {
    rm -f "$work/programs/$1"
    "${@:2}" > "$work/$1.log" 2>&1 || echo "passed over: $1, which was not built; $work/$1.log tells why" >&2
}

include=$work/unpacked/usr/include
libraries=$work/unpacked/usr/lib/$(g++ -print-multiarch || true)
with_gcc() {
    g++ -O3 -march=x86-64-v2 -I"$include" -I"$include/jsoncpp" -I/usr/include/jsoncpp "$top/bench/peers/$1.cpp" \
        -o "$work/programs/$1" -L"$libraries" -Wl,-rpath,"$libraries" "${@:2}"
}
build rapidjson with_gcc rapidjson
build jsoncpp with_gcc jsoncpp -ljsoncpp
build simdjson with_gcc simdjson -lsimdjson

registry=$work/unpacked/usr/share/cargo/registry
[ -d "$registry" ] || registry=/usr/share/cargo/registry
cat > "$work/serde_json/Cargo.toml" <<MANIFEST
[package]
name = "peer_serde_json"
version = "0.0.0"
edition = "2024"
[[bin]]
name = "serde_json"
path = "$top/bench/peers/serde_json.rs"
[dependencies]
serde_json = { version = "1", default-features = false, features = ["std"] }
MANIFEST
cat > "$work/serde_json/.cargo/config.toml" <<CONFIG
[source.crates-io]
replace-with = "debian"
[source.debian]
directory = "$registry"
CONFIG
with_cargo() (cd "$work/serde_json" && cargo build --release --offline --quiet && cp target/release/serde_json "$work/programs/")
build serde_json with_cargo

# The kit builds crates of a repository alone, so the program has one of its own. Ours takes no such source outside its crates,
# so that has another ending here.
echo 'peer_json: json' > "$work/kit/crates.txt"
cp "$top/bench/peers/json.rt.txt" "$work/kit/crates/peer_json/src/main.rt"
with_kit() (cd "$work/kit/crates/peer_json" && rt run -- value 0 < /dev/null && cp out/peer_json "$work/programs/json")
build json with_kit

# Ours is the program that users would install.
(cd "$top/crates/jsonc_speed" && rt run -- nothing 0 < stdin > /dev/null)

exec python3 "$top/bench/peers/compare.py" "$top/crates/jsonc_speed/out/jsonc_speed" "$work/programs" "$work/documents" ${1:+"$1"}
