#!/bin/sh
# Runs the program of an installation, as its bin/postcopy. Without words, where standard input is a terminal, it says how it is used. A
# write beyond the limit of a file's size fails, and sends no signal, which the program cannot ignore by itself.
trap '' XFSZ
program=
case $0 in
    */*) [ -L "$0" ] || program=${0%/*}/../libexec/postcopy/postcopy ;;
esac
: "${program:=$(dirname "$(readlink -f "$0")")/../libexec/postcopy/postcopy}"
if [ $# -eq 0 ] && [ -t 0 ]; then
    "$program" --help >&2
    exit 2
fi
exec "$program" "$@"
