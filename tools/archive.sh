#!/bin/sh
# Builds the static library by the toolchain, which proves it, and puts it where the makefiles look for it: target/staticlib/libsam47.a.
set -eu
cd "$(dirname "$0")/.."
(cd crates/sam47_c && rt lib)
mkdir -p target/staticlib
cp crates/sam47_c/out/libsam47_c.a target/staticlib/libsam47.a
