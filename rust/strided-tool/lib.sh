# shellcheck shell=sh disable=SC2034,SC2154
# Shared by the commands that build and check the tool: where its crates come from. Sourced, with $root set.

registry=/usr/share/cargo/registry
packages='librust-clap-dev librust-png-dev librust-indicatif-dev librust-rustix-dev librust-signal-hook-dev'
tool=$root/target/rust/release/strided

say() { printf '%s\n' "$*" >&2; }

fail() {
    say "$*"
    exit 1
}

need_cargo() {
    command -v cargo >/dev/null 2>&1 || PATH=$PATH:${HOME-}/.cargo/bin
    command -v cargo >/dev/null 2>&1 || fail "cargo is missing: install Rust 1.84 or newer"
}

# Installs Debian's packages, named as arguments, where that can be done. What apt-get says goes to a file.
install_packages() {
    command -v apt-get >/dev/null 2>&1 && [ "$(id -u)" -eq 0 ] || return 1
    say "installing $* from Debian"
    mkdir -p "$root/target/rust"
    {
        apt-get -o DPkg::Lock::Timeout=300 update &&
            DEBIAN_FRONTEND=noninteractive apt-get -o DPkg::Lock::Timeout=300 install -y "$@"
    } >"$root/target/rust/apt.log" 2>&1 || {
        say "apt-get could not install them (target/rust/apt.log)"
        return 1
    }
}

have_crates() {
    set -- "$registry"/clap-4.* "$registry"/png-0.17.* "$registry"/indicatif-0.17.* "$registry"/rustix-[01].* "$registry"/signal-hook-0.3.*
    for crate; do
        [ -e "$crate" ] || return 1
    done
}

# Finds the crates: Debian's where they are or can be installed, or else those of the usual registry.
find_crates() {
    # shellcheck disable=SC2086
    if have_crates || { install_packages $packages && have_crates; }; then
        from_debian=yes
        # Debian has one version of each crate, so that a lock of other versions is of no use.
        rm -f "$root/rust/strided-tool/Cargo.lock"
        return 0
    fi
    from_debian=no
    mkdir -p "$root/target/rust"
    (cd "$root/rust/strided-tool" && cargo fetch) >"$root/target/rust/fetch.log" 2>&1 ||
        fail "clap, png, indicatif, rustix and signal-hook could not be had: neither as Debian's packages ($packages) nor from the usual registry"
}

# Runs cargo in the tool's folder, its results in target/rust.
tool_cargo() {
    (
        cd "$root/rust/strided-tool" || exit
        command=$1
        shift
        if [ "$from_debian" = yes ]; then
            set -- --offline --config 'source.crates-io.replace-with="debian"' \
                --config "source.debian.directory=\"$registry\"" "$@"
        fi
        cargo "$command" --quiet --release --target-dir "$root/target/rust" "$@"
    ) >&2
}
