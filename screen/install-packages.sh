#!/bin/sh
# Installs the Debian packages of the desk's screen, as root. It names them first.
#
#     sh screen/install-packages.sh [--screen-only]
#
# With --screen-only these are the packages that the screen itself needs, without it those of its tests too. A proxy with
# TLS and logins is the administrator's choice: the tests use nginx.
set -eu
packages="python3 python3-aiohttp python3-networkx"
if [ $# -eq 0 ]; then
    packages="$packages chromium chromium-driver curl nginx-light openssl poppler-utils python3-selenium"
elif [ "$*" != --screen-only ]; then
    echo "usage: sh screen/install-packages.sh [--screen-only]" >&2
    exit 64
fi
echo "installing: $packages"
apt-get update
# shellcheck disable=SC2086
DEBIAN_FRONTEND=noninteractive apt-get install -y --no-install-recommends $packages
