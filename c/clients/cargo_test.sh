#!/bin/sh
# cargo_test.sh CRATE WORK WHICH..: builds a crate's tests as WORK/tests, from what Debian's librust packages have beside CRATE, and from
# nothing else. WHICH is --lib, or --test and a name. A manifest.toml that stands in WORK is taken in place of its Cargo.toml.
set -e
crate=$1 work=$2
shift 2
cp -r "$crate" "$work/crate"
[ ! -f "$work/manifest.toml" ] || cp "$work/manifest.toml" "$work/crate/Cargo.toml"
cd "$work/crate"
export RUSTFLAGS=-Awarnings
cargo test --quiet --offline --no-run --jobs 2 --target-dir "$work/target" --config 'source.crates-io.replace-with="debian"' \
    --config "source.debian.directory=\"$crate/..\"" "$@"
for built in "$work"/target/debug/deps/*; do
    case $built in
    *.d | *.so | *.rlib | *.rmeta | *.o) ;;
    *) cp "$built" "$work/tests" ;;
    esac
done
