#!/bin/sh
# Installs the crate sources that the oracle is built with, from Debian's packages. Quick where they are there.
set -eu

packages='librust-num-dev librust-bytemuck-dev librust-strum-dev librust-strum-macros-dev'
missing=''
for package in $packages; do
    dpkg-query -W -f '${Status}' "$package" 2>/dev/null | grep -q 'ok installed' || missing="$missing $package"
done
[ -n "$missing" ] || exit 0

apt-get update
# shellcheck disable=SC2086
apt-get install -y --no-install-recommends $missing
