#!/usr/bin/env bash
# The library's calls from C: over the static library with AddressSanitizer, and over the shared one under valgrind; each
# request for memory refused in turn; what dear messages take of memory and of steps; and the kept inputs of the fuzzer.
# Give a number to begin its random messages with; else the time gives one, and it is printed.
set -euo pipefail
cd "$(dirname "$0")/.."
seed=${1:-$(date +%s%N)}
[ -e build/libginelm.a ] || c/build.sh build
work=$(mktemp -d)
trap 'rm -rf "$work"' EXIT
cc=${CC:-cc}

"$cc" -std=c11 -Wall -Wextra -Werror -g -O1 -fsanitize=address,undefined -Ibuild c/test.c build/libginelm.a -lpthread -o "$work/checked"
"$work/checked" 20000 "$seed"

"$cc" -std=c11 -Wall -Wextra -Werror -g -O1 -Ibuild c/test.c -Lbuild -lginelm -Wl,-rpath,"$PWD/build" -lpthread -o "$work/shared"
valgrind --quiet --error-exitcode=9 --leak-check=full --show-leak-kinds=all "$work/shared" 20000 "$seed"

# By a heap that counts, and refuses.
wrap=-Wl,--wrap=malloc,--wrap=calloc,--wrap=realloc,--wrap=free
"$cc" -std=c11 -Wall -Wextra -Werror -g -O1 -fsanitize=address,undefined -Ibuild c/refusals.c c/heap.c build/libginelm.a $wrap -o "$work/refusals"
"$work/refusals"
"$cc" -std=c11 -Wall -Wextra -Werror -g -O1 -Ibuild c/hostile.c c/heap.c build/libginelm.a $wrap -o "$work/hostile"
"$work/hostile"
valgrind --quiet --tool=callgrind --collect-atstart=no --callgrind-out-file="$work/steps" "$work/hostile" steps >/dev/null
python3 c/steps.py "$work"/steps*

# What libFuzzer found worth keeping, once more.
tar -xzf c/corpus.tar.gz -C "$work"
"$cc" -std=c11 -Wall -Wextra -Werror -g -O1 -fsanitize=address,undefined -Ibuild c/fuzz.c c/replay.c build/libginelm.a -lpthread -o "$work/replay"
"$work/replay" "$work"/corpus/*

# The names that are seen from outside are those of the header.
diff <(nm -D --defined-only build/libginelm.so | awk '$2 == "T" { print $3 }' | sed 's/@.*//' | sort) \
    <(grep -o '^\(uint32_t\|void\) ginelm_[a-z_]*(' c/ginelm.h | sed 's/.* \(.*\)(/\1/' | sort)
echo "the names of libginelm.so are those of ginelm.h"
