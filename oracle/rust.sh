# Shared by oracle/build and bench/run: lays out the seed's Rust, unchanged, over a copy of Debian's chrono, and
# compiles the crates below it. Sourced at the root; the caller has `stop` and `compile`, its rustc with its flags.
# shellcheck shell=sh

registry=${CARGO_SOURCES:-/usr/share/cargo/registry}

# The newest of a crate's folders, or nothing.
crate() {
    find "$registry" -maxdepth 1 -name "$1" 2>/dev/null | sort -V | tail -n 1
}

# Names the folders of the crates and of the seed.
find_rust() {
    command -v rustc >/dev/null || stop "rustc is missing"
    chrono=$(crate 'chrono-0.4.*')
    integer=$(crate 'num-integer-0.1.*')
    traits=$(crate 'num-traits-0.2.*')
    if [ -z "$chrono" ] || [ -z "$integer" ] || [ -z "$traits" ]; then
        stop "chrono's source is missing: apt-get install librust-chrono-dev"
    fi
    plotters=${ORDERED_SEED:-../plotters-0.3.7}
    seed=$plotters/src/coord/ranged1d
    [ -f "$seed/mod.rs" ] || stop "no seed in $seed: name its folder in ORDERED_SEED"
    # Another version of plotters may answer otherwise; sha256sum names the files.
    (cd "$plotters" && sha256sum -c --quiet) <oracle/seed.sha256 >&2 || stop "the seed in $plotters is not plotters 0.3.7's"
}

# lay_out FOLDER: makes FOLDER/tree and FOLDER/chrono.
lay_out() {
    rm -rf "$1/tree" "$1/chrono"
    mkdir -p "$1/tree/seed"

    # Our files first, then the seed's: mod.rs where its modules are looked for,
    # the two that ours take in beside them.
    cp -R oracle/src/. "$1/tree/"
    cp "$seed/mod.rs" "$1/tree/coord/ranged1d/mod.rs"
    cp "$seed/discrete.rs" "$1/tree/seed/discrete.rs"
    cp "$seed/types/datetime.rs" "$1/tree/seed/datetime.rs"
    chmod -R u+w "$1/tree"

    # Chrono's own files, and the one impl that the seed wants.
    cp -R "$chrono/src" "$1/chrono"
    chmod -R u+w "$1/chrono"
    if ! grep -q 'AddAssign.* for Duration' "$1/chrono/oldtime.rs"; then
        echo >>"$1/chrono/oldtime.rs"
        cat oracle/src/add_assign.rs >>"$1/chrono/oldtime.rs"
    fi
}

# compile_crates FOLDER: chrono and the two that it uses, into FOLDER.
# The cfgs are those that the two crates' build scripts find with this rustc.
compile_crates() {
    compile --cap-lints allow --edition 2015 --crate-type rlib --crate-name num_traits \
        --cfg has_i128 --cfg has_to_int_unchecked --cfg has_reverse_bits \
        --cfg has_leading_trailing_ones --cfg has_int_assignop_ref --cfg has_div_euclid \
        "$traits/src/lib.rs"
    compile --cap-lints allow --edition 2015 --crate-type rlib --crate-name num_integer \
        --cfg has_i128 --extern "num_traits=$1/libnum_traits.rlib" "$integer/src/lib.rs"
    compile --cap-lints allow --edition 2018 --crate-type rlib --crate-name chrono \
        --cfg 'feature="std"' --extern "num_traits=$1/libnum_traits.rlib" \
        --extern "num_integer=$1/libnum_integer.rlib" "$1/chrono/lib.rs"
}

# same_seed FOLDER: what was compiled is the seed, byte for byte.
same_seed() {
    cmp "$seed/mod.rs" "$1/tree/coord/ranged1d/mod.rs"
    cmp "$seed/discrete.rs" "$1/tree/seed/discrete.rs"
    cmp "$seed/types/datetime.rs" "$1/tree/seed/datetime.rs"
}
