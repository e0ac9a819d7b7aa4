#!/usr/bin/env bash
# Installs what the tests call and lack from Debian's packages. Only root may; anyone else is told what is missing.
set -euo pipefail
missing=()
for pair in flock:util-linux script:bsdutils setpriv:util-linux cmp:diffutils awk:mawk cc:gcc git:git bats:bats parallel:parallel patch:patch mandoc:mandoc zsh:zsh fish:fish strace:strace; do
    command -v "${pair%%:*}" > /dev/null || missing+=("${pair##*:}")
done
if [ ${#missing[@]} = 0 ]; then exit 0; fi
if [ "$(id -u)" != 0 ] || ! command -v apt-get > /dev/null; then
    echo "tests/needs.sh: these packages of Debian are missing: ${missing[*]}" >&2
    exit 1
fi
export DEBIAN_FRONTEND=noninteractive
apt-get update -qq
apt-get install -y -qq "${missing[@]}" > /dev/null
