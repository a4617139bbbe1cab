#!/bin/sh
# All that is tried of the crate: its tests, its examples beside serde_yaml 0.9.34, and the comparison with that. No part
# of the gate.
# usage: sh rust/test.sh [SEED [TEXTS]]
# YAML_C_DIR: the folder of libyaml_c.a and liblibc_c.a, if not crates/yaml_c/out.
# REGISTRY: a folder of crates to take in place of crates.io, as /usr/share/cargo/registry of Debian's packages
#   librust-serde-dev, librust-serde-derive-dev, librust-indexmap-dev; with it cargo asks no network.
# ORIGINAL: a folder with the crate serde_yaml 0.9.34, in place of the one of crates.io. Its `Value` need not have what
#   the example `manifest` asks of it, which is then run by this crate alone.
# WORK: where to build; else a temporary folder.
set -e
here=$(cd "$(dirname "$0")" && pwd)
YAML_C_DIR=${YAML_C_DIR:-$here/../crates/yaml_c/out}
export YAML_C_DIR
work=${WORK:-$(mktemp -d)}
[ "$WORK" ] || trap 'rm -rf "$work"' EXIT
mkdir -p "$work/.cargo"
for name in Cargo.toml README.md build.rs src tests examples compare; do
  rm -rf "${work:?}/$name"
  cp -R "$here/$name" "$work/$name"
done
{
  if [ "$REGISTRY" ]; then
    printf '[source.crates-io]\nreplace-with = "folder"\n[source.folder]\ndirectory = "%s"\n' "$REGISTRY"
    printf '[net]\noffline = true\n'
  fi
  [ -z "$ORIGINAL" ] || printf '[patch.crates-io]\nserde_yaml = { path = "%s" }\n' "$ORIGINAL"
} > "$work/.cargo/config.toml"

cd "$work"
lines=$(wc -l < src/door.rs)
[ "$lines" -le 150 ] || { echo "src/door.rs has $lines lines: at most 150"; exit 1; }
if grep -rln 'unsafe {' src | grep -v '^src/door.rs$'; then
  echo "unsafe stands outside of src/door.rs"
  exit 1
fi
cargo test
if cargo clippy --version > /dev/null 2>&1; then
  cargo clippy --all-targets -- -D warnings
fi

# the examples print the same where nothing but their first import is changed
mkdir -p compare/examples
cp examples/*.yaml compare/examples
for name in config manifest stream; do
  cargo run -q --example $name > "$name.ours"
  if [ -z "$ORIGINAL" ] || [ $name != manifest ]; then
    sed '/^use panelhemp_yaml as serde_yaml;$/d' "examples/$name.rs" > "compare/examples/$name.rs"
    (cd compare && cargo run -q --example $name) > "$name.theirs"
    diff "$name.ours" "$name.theirs"
    echo "example $name: as the original"
  fi
done

cd compare
cargo run --release --bin compare -- "${1:-1}" "${2:-2000}"
