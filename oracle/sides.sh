# Shared by oracle/differential, oracle/compare and oracle/rows: the two sides, and the same requests put to both.
# Sourced at the root by bash; the caller has `stop`, and the archive's path in `archive`.
# shellcheck shell=bash

oracle=oracle/target/oracle
out=build/differential

# Compiles the programs that make requests, compare answers and ask the archive.
build_clients() {
    local flags=(-std=c11 -Wall -Wextra -Werror -O2 -Iinclude)
    [ -x "$oracle" ] || stop "run oracle/build first"
    [ -f "${archive:?}" ] || stop "no archive $archive: run examples/make archive first"
    mkdir -p "$out"
    gcc "${flags[@]}" tests/c/requests.c -o "$out/requests"
    gcc "${flags[@]}" tests/c/replay.c "$archive" -o "$out/replay"
    gcc "${flags[@]}" tests/c/ask.c "$archive" -o "$out/ask"
}

# compare_sides TALLY OPERATION SEED COUNT [excluded]: the requests are made twice, once for each side, so that nothing is kept.
# A side that stops early leaves lines over. An empty name: no tally.
compare_sides() {
    "$out/replay" <("$out/requests" "${@:2}") <("$out/requests" "${@:2}" | "$oracle") "$4" ${1:+"$1"}
}
