#!/bin/bash
# Builds the static library, and runs a C program and the tests of the Rust crate over it.
#
# usage: bench/c-and-rust.sh
#
# It proves jsonc_c first, unless JSONC_C names the folder of its archive; with LIBRARIES_ARE_PROVED, which .ci/run sets
# behind `rt ci`, over the libraries that lie in this checkout, and else over libraries that it proves too. The C program runs plain, with each allocation
# refused in turn under the address and undefined behaviour sanitizers, and its threads under the thread sanitizer.
# The programs of include/README.md and rust/jsonc/README.md are taken out of these pages, built as they say, and run.
# What needs a compiler that is not there is passed over with a word: gcc, or cargo (edition 2024).
set -e
cd "$(dirname "$0")/.."
top=$PWD
bench/declare-calls --check
work=$(mktemp -d)
trap 'rm -rf "$work"' EXIT
if [ -n "$LIBRARIES_ARE_PROVED" ]; then
    python3 - << 'STAMPS'
import os, subprocess, sys
top = os.getcwd()
page = subprocess.run(["rt", "doc"], capture_output=True, text=True, check=True).stdout.strip()
sys.path.insert(0, f"{os.path.dirname(page)}/bin")
import rtlib
# (some kits ask a library anew on each way down to it, of which there are many)
stamp, known = rtlib.Crate.stamp, {}
def stamp_once(crate):
    if crate.folder not in known:
        known[crate.folder] = stamp(crate)
    return known[crate.folder]
rtlib.Crate.stamp = stamp_once
os.chdir("crates/jsonc_c")
for crate in rtlib.crates_below(os.getcwd()):
    if os.path.isdir(crate.rlib) and crate.folder.startswith(top):
        with open(f"{os.path.dirname(crate.rlib)}/stamp", "w", encoding="utf-8") as file:
            file.write(crate.stamp())
STAMPS
fi
[ -n "$JSONC_C" ] || (cd crates/jsonc_c && rt lib --jobs 1 > "$work/said" || { tail -n 5 "$work/said"; exit 1; })
export JSONC_C=${JSONC_C:-$top/crates/jsonc_c/out}
export RATTLE_C=${RATTLE_C:-$(dirname "$(rt doc)")/c}
# The block of a page in this language.
block() { sed -n "/^\`\`\`$2\$/,/^\`\`\`\$/{//!p}" "$1"; }
if command -v gcc > /dev/null; then
    archives="$JSONC_C/libjsonc_c.a $RATTLE_C/liblibc_c.a"
    flags="-std=c11 -Wall -Wextra -Werror -pedantic -Iinclude"
    gcc $flags -O2 bench/c/calls.c -o "$work/calls" $archives -lpthread
    "$work/calls"
    block include/README.md c > "$work/example.c"
    gcc $flags "$work/example.c" -o "$work/example_c" $archives
    "$work/example_c" > "$work/written"
    printf '{\n  "size": 16, // points\n}\n' | cmp - "$work/written"
    if gcc -fsanitize=address,undefined -x c -o "$work/tried" - <<< 'int main(void) { return 0; }' 2> /dev/null; then
        gcc $flags -O1 -g -DREFUSE -fsanitize=address,undefined -Wl,--wrap=malloc,--wrap=realloc,--wrap=free \
            bench/c/calls.c -o "$work/refused" $archives -lpthread
        "$work/refused"
    else
        echo "passed over: gcc has no sanitizers here"
    fi
    if gcc -fsanitize=thread -x c -o "$work/tried" - <<< 'int main(void) { return 0; }' 2> /dev/null && "$work/tried" 2> /dev/null; then
        gcc $flags -O1 -g -fsanitize=thread bench/c/calls.c -o "$work/threads" $archives -lpthread
        "$work/threads"
    else
        echo "passed over: the thread sanitizer does not run here"
    fi
else
    echo "passed over: the C program, as gcc is not there"
fi
if command -v cargo > /dev/null; then
    export CARGO_TARGET_DIR="$work/target"
    (cd rust/jsonc && cargo test --offline --quiet)
    mkdir -p "$work/example/src"
    block rust/jsonc/README.md rust > "$work/example/src/main.rs"
    printf '[package]\nname = "example"\nedition = "2024"\n[dependencies]\n' > "$work/example/Cargo.toml"
    sed -n "s|^    \(jsonc = .*\)LIB|\1$top|p" rust/jsonc/README.md >> "$work/example/Cargo.toml"
    (cd "$work/example" && cargo run --offline --quiet)
else
    echo "passed over: the Rust crate, as cargo is not there"
fi
