#!/bin/sh
# Builds the plain program that the proved one is compared with: target/release/plain.
#
# It needs Debian or a system like it, the right to install packages (root, or sudo), and Rust with
# cargo, 1.70 or later. The crates csv, indexmap and rayon come from Debian's packages; nothing else
# is fetched.
set -eu
cd "$(dirname "$0")"

as_root=
[ "$(id -u)" = 0 ] || as_root=sudo
packages="librust-csv-dev librust-indexmap-dev librust-rayon-dev"
# shellcheck disable=SC2086 # the names are words of their own
dpkg -s $packages >/dev/null 2>&1 || {
    $as_root apt-get update
    $as_root apt-get install -y --no-install-recommends $packages
}
command -v cargo >/dev/null || {
    echo "setup.sh: there is no cargo; install Rust 1.70 or later" >&2
    exit 1
}
cargo build --release
echo "built: $(pwd)/target/release/plain"
