#!/usr/bin/env bash
# Makes libginelm.a and libginelm.so in the folder build/ (or in the one that is given), with ginelm.h beside them.
set -euo pipefail
cd "$(dirname "$0")/.."
into=$(mkdir -p "${1:-build}" && cd "${1:-build}" && pwd)
kit=$(dirname "$(rt doc)")
library=crates/ginelm_c/out/libginelm_c.a
if [ ! -e "$library" ]; then
    if [ -d crates/replica_core/out/rlib ]; then
        python3 c/library.py ginelm_c "$(nproc)"
    else
        (cd crates/ginelm_c && rt lib)
    fi
fi
work=$(mktemp -d)
trap 'rm -rf "$work"' EXIT

# The heap of the kit is three functions over malloc. All else stays outside.
(cd "$work" && ar x "$kit/c/liblibc_c.a" heap.pic.o)
heap=$work/heap.pic.o
cp "$library" "$work/libginelm.a"
ar q "$work/libginelm.a" "$heap"
ranlib "$work/libginelm.a"

# What is seen from outside is what the header declares.
{
    echo 'GINELM_1 {'
    echo '  global:'
    grep -o '^\(uint32_t\|void\) ginelm_[a-z_]*(' c/ginelm.h | sed 's/.* \(.*\)(/    \1;/'
    echo '  local: *;'
    echo '};'
} >"$work/ginelm.map"
"${CC:-cc}" -shared -o "$work/libginelm.so" -Wl,-soname,libginelm.so.1 -Wl,--version-script="$work/ginelm.map" \
    -Wl,--gc-sections -Wl,-z,defs -Wl,--whole-archive "$library" -Wl,--no-whole-archive "$heap"
install -m 644 "$work/libginelm.a" "$work/libginelm.so" c/ginelm.h "$into"
ln -sf libginelm.so "$into/libginelm.so.1"
echo "made $into/libginelm.a and $into/libginelm.so"
