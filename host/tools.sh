# Sets `cargo` and its environment for Rust programs over the library, which is x86-64 code: elsewhere cargo and rustc of the
# distribution, whose standard library for x86-64 is a package too. Sourced at the repository's root.
. scripts/library.sh
cargo=cargo
export CARGO_TARGET_DIR="$PWD/target/host"
export CARGO_BUILD_TARGET=x86_64-unknown-linux-gnu
if [ -n "$runner" ]; then
    cargo=/usr/bin/cargo
    export RUSTC=/usr/bin/rustc
    export CARGO_TARGET_X86_64_UNKNOWN_LINUX_GNU_LINKER="$compiler"
    export CARGO_TARGET_X86_64_UNKNOWN_LINUX_GNU_RUNNER="$runner"
    if ! has "$cargo" "$RUSTC" || [ ! -d "/usr/lib/rustlib/$CARGO_BUILD_TARGET/lib" ]; then
        dpkg --add-architecture amd64
        fetch cargo rustc libstd-rust-dev:amd64
    fi
elif ! has cargo; then
    fetch cargo
fi
programs="$CARGO_TARGET_DIR/$CARGO_BUILD_TARGET/release"

# build CARGO-ARGUMENT...: builds programs over the library, into $programs.
build() {
    library
    "$cargo" build --quiet --release --offline --manifest-path host/Cargo.toml "$@"
}
