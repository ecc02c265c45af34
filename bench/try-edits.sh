#!/usr/bin/env bash
# Tries every must-fail edit of the crates named, or of all: those of the gate, and those kept as NAME.edit.md.
set -eu
cd "$(dirname "$0")/.."
room=$(mktemp -d)
trap 'rm -rf "$room"' EXIT
tar -c --exclude=.git --exclude=incremental . | tar -x -C "$room"
cd "$room"
for edit in crates/*/must-fail/*.edit.md; do mv "$edit" "${edit%.md}"; done
rt must-fail "$@"
