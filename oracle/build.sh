# Sourced by compare, wide and bench/run, at the root of the repository: the Rust as published, built by rustc alone below
# target/oracle, and programs of ours around it. FROM is its folder.
room=target/oracle

# at_hand FROM: ends the script where the Rust or its compiler is not there.
at_hand() {
    if [ ! -f "$1/crates/lcr-core/src/ecc/ldpc.rs" ]; then
        echo "oracle: the Rust is not at hand: there is no $1/crates/lcr-core/src/ecc/ldpc.rs. Nothing was compared."
        exit 2
    fi
    if ! command -v rustc >/dev/null; then
        echo "oracle: rustc is not at hand. Nothing was compared."
        exit 2
    fi
}

# library NAME ROOT.rs [FLAG..]: a library for the programs.
library() {
    library_name=$1
    library_root=$2
    shift 2
    rustc --edition 2021 -O --crate-type rlib --crate-name "$library_name" "$@" -o "$room/lib$library_name.rlib" "$library_root"
}

# published FROM: lcr_core, the Rust as it stands. A copy, since `rt ci` refuses links anywhere in the checkout. The
# folder `ecc` is there for the paths in lcr_core.rs.
published() {
    mkdir -p "$room/ecc"
    rm -rf "$room/lcr"
    cp -R "$1" "$room/lcr"
    chmod -R u+w "$room/lcr"
    cp oracle/lcr_core.rs "$room/"
    library lcr_core "$room/lcr_core.rs"
}

# ours: our archive, in the folder $archive, and the wrapper around it. Where FUYEGBO_LIB_DIR is set, the archive in it is taken as
# it is; else it is built.
ours() {
    archive=${FUYEGBO_LIB_DIR:-target/staticlib}
    [ -n "${FUYEGBO_LIB_DIR:-}" ] || ./archive
    mkdir -p "$room"
    library fuyegbo rust/src/lib.rs
}

# task NAME FROM DRIVER.rs [MODULE.rs..]: xtask's main.rs as it stands. DRIVER is its module `vectors`, with each MODULE below
# that; its other modules are empty.
task() {
    task_room=$room/$1
    rm -rf "$task_room"
    mkdir -p "$task_room/vectors"
    cp "$2/xtask/src/main.rs" "$task_room/"
    for name in debruijn palette thresholds; do
        echo 'pub fn report() -> String { String::new() } pub fn table() -> String { String::new() }' >"$task_room/$name.rs"
    done
    echo 'pub fn report(_: &str) -> String { String::new() }' >"$task_room/sweep.rs"
    cp "$3" "$task_room/vectors.rs"
    shift 3
    [ $# = 0 ] || cp "$@" "$task_room/vectors/"
}

# program OUT TASK [FLAG..]: the task's program. It uses a part of main.rs only.
program() {
    program_out=$1
    program_task=$2
    shift 2
    rustc --edition 2021 -O -A dead_code --extern "lcr_core=$room/liblcr_core.rlib" "$@" -o "$room/$program_out" \
        "$room/$program_task/main.rs"
}

# with_ours OUT TASK [FLAG..]: the same, with the wrapper and the archive.
with_ours() {
    program "$@" --extern "fuyegbo=$room/libfuyegbo.rlib" -L "native=$archive" -l static=fuyegbo
}
