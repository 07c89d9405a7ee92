#!/usr/bin/env bash
# Runs the basket by C, Rust and Python over the library in build/: each prints what the program of Rattle prints.
set -euo pipefail
cd "$(dirname "$0")/.."
[ -e build/libginelm.a ] || c/build.sh build
work=$(mktemp -d)
trap 'rm -rf "$work"' EXIT
"${CC:-cc}" -std=c11 -Wall -Wextra -Werror -O1 -Ibuild examples/basket.c build/libginelm.a -o "$work/basket"
"$work/basket" | diff - crates/basket/stdout
cargo run --quiet --offline --manifest-path rust/Cargo.toml --example basket | diff - crates/basket/stdout
PYTHONPATH=python /usr/bin/python3 examples/basket.py | diff - crates/basket/stdout
[ "$(PYTHONPATH=python /usr/bin/python3 examples/two_maps.py)" = "[b'bread', b'milk']" ]
echo "examples/basket.c, basket.rs and basket.py print what crates/basket prints"
