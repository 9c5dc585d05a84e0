# Shared by the commands of this folder: paths and builds. Sourced, not run.

here=$(CDPATH='' cd -- "$(dirname -- "$0")" && pwd)
root=$(dirname -- "$here")
# The folder of the Rust source, which the builds of it take from the environment.
STRIDED_RS_SRC=${STRIDED_RS_SRC:-$(dirname -- "$root")/shared/docs/src}
case $STRIDED_RS_SRC in
/*) ;;
*) STRIDED_RS_SRC=$PWD/$STRIDED_RS_SRC ;;
esac
export STRIDED_RS_SRC
original=$STRIDED_RS_SRC/strided-basic/src/gather_plan.rs
bin=$root/target/differential/release
work=$root/target/differential/work
packed=$root/crates/stored_cases/data/cases.bin

say() { printf '%s\n' "$*" >&2; }

fail() {
    say "$*"
    exit 1
}

need_cargo() {
    command -v cargo >/dev/null 2>&1 || PATH=$PATH:${HOME-}/.cargo/bin
    command -v cargo >/dev/null 2>&1 || fail "cargo is missing: install Rust 1.84 or newer"
}

# The model, the generator, the comparison: no crate from outside.
build_cases() {
    need_cargo
    (cd "$here/rust" && cargo build --release --quiet --offline --locked -p model -p cases) >&2
}

have_original() { [ -r "$original" ]; }

have_tinyvec() {
    set -- /usr/share/cargo/registry/tinyvec-[0-9]* /usr/share/cargo/registry/tinyvec_macros-[0-9]*
    [ -e "$1" ] && [ -e "$2" ]
}

# Debian's tinyvec stands in for the registry's.
install_tinyvec() {
    have_tinyvec && return
    say "installing tinyvec from Debian"
    { apt-get update && apt-get install -y librust-tinyvec-dev 'librust-tinyvec+alloc-dev'; } >&2
    have_tinyvec || fail "tinyvec is missing: install librust-tinyvec-dev with its alloc feature"
}

build_oracle() {
    have_original || fail "the oracle is not built: there is no $original (STRIDED_RS_SRC)"
    need_cargo
    install_tinyvec
    (cd "$here/rust/oracle" && cargo build --release --quiet --offline) >&2
}

# The static library is made before the driver that links it, by the crate rust/strided.
build_port() {
    need_cargo
    "$root/library" || fail "there is no libstrided.a"
    (cd "$here/rust" && STRIDED_LIB_DIR=$root/target/staticlib cargo build --release --quiet --offline --locked -p port) >&2
}
