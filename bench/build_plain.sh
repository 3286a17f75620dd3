#!/bin/sh
# Builds a plain program, as every bench does: without crates, in one unit, and for the processor that Rattle builds for.
#
# usage: build_plain.sh SOURCE PROGRAM
exec rustc --edition 2021 -C opt-level=3 -C target-cpu=x86-64-v2 -C codegen-units=1 -o "$2" "$1"
