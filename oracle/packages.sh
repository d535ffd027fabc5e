#!/bin/sh
# Installs the Debian packages named as arguments, where they are missing.
set -eu

fail() {
    printf 'packages.sh: %s\n' "$1" >&2
    exit 1
}

if [ "${1:-}" = --help ]; then
    printf 'usage: oracle/packages.sh PACKAGE...\n'
    printf 'Installs those of the Debian packages that are missing; that takes root.\n'
    exit 0
fi

command -v cargo >/dev/null || fail "cargo is not installed"
command -v dpkg-query >/dev/null || fail "the crates come from Debian's packages, and this is no Debian"

# Each argument is taken off the front; those to install are put back at the end.
for package in "$@"; do
    shift
    status=$(dpkg-query -W -f '${Status}' "$package" 2>/dev/null) || status=
    [ "$status" = "install ok installed" ] || set -- "$@" "$package"
done
[ $# -gt 0 ] || exit 0

[ "$(id -u)" -eq 0 ] || fail "install as root: $*"
printf 'packages.sh: installing %s\n' "$*"
export DEBIAN_FRONTEND=noninteractive
apt-get update -qq || fail "apt-get update failed"
apt-get install -y -qq --no-install-recommends "$@" >/dev/null || fail "could not install $*"
