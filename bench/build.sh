#!/usr/bin/env bash
# Builds the plain Rust programs, over the crates that Debian packages: nothing is fetched.
set -eu
cd "$(dirname "$0")"
../.ci/need cargo:cargo || exit 1
if ! ls -d /usr/share/cargo/registry/serde_json-1.* > /dev/null 2>&1; then
  echo "the plain program wants serde_json: apt-get install librust-serde-json-dev" >&2
  exit 1
fi
timeout -k 5 900 cargo build --quiet --release --offline
