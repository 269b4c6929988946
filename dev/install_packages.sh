#!/bin/sh
# Installs the Debian packages of dev/packages.txt that aren't there yet.
set -e
cd "$(dirname "$0")"
wanted=$(sed 's/[[:space:]]*#.*//' packages.txt)
missing=
for package in $wanted; do
  dpkg-query -W -f '${Status}' "$package" 2>/dev/null | grep -q 'ok installed' || missing="$missing $package"
done
[ -z "$missing" ] && exit 0
apt-get update -q
# shellcheck disable=SC2086 # one word a package
DEBIAN_FRONTEND=noninteractive apt-get install -y -q --no-install-recommends $missing
