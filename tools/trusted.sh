#!/usr/bin/env bash
# Prints the trusted files of specs/, one to a line in reading order, out of the text of docs/PROMISES.md on standard input: those in the first column of its
# tables. A name without a folder stands beside the one before it.
set -eu

awk '
    /^\|/ {
        split($0, cell, "|")
        text = cell[2]
        folder = ""
        while (match(text, /`[^`]*`/)) {
            name = substr(text, RSTART + 1, RLENGTH - 2)
            text = substr(text, RSTART + RLENGTH)
            if (name ~ /^crates\/.*\.antt$/) {
                folder = name
                sub(/[^\/]*$/, "", folder)
            } else if (folder != "" && name ~ /^[A-Za-z]+\.antt$/) {
                name = folder name
            } else {
                continue
            }
            if (!seen[name]++) print name
        }
    }'
