#!/bin/sh
# Runs filmdist, or another program, on two films: sh examples/run.sh FILM DRAWING [PROGRAM]
# The program reads a.cells and b.cells in the folder that it is started in, so both are laid into a new one.
set -eu
name="${3:-filmdist}"
program="$(pwd)/crates/$name/out/$name"
folder="$(mktemp -d)"
trap 'rm -rf "$folder"' EXIT
lay() {
    if [ -f "$1" ] && [ -r "$1" ]; then
        cp "$1" "$folder/$2"
    else
        echo "run: $1 cannot be read, and counts as empty" >&2
    fi
}
lay "$1" a.cells
lay "$2" b.cells
cd "$folder" && "$program"
