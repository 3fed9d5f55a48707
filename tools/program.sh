#!/bin/sh
# program.sh NAME..: builds each program by the toolchain, which proves it, and puts it where the tests look for it: target/bin/NAME. The toolchain runs what it
# has built, once, on no input; what that run says is not looked at.
set -eu
cd "$(dirname "$0")/.."
mkdir -p target/bin
for name in "$@"; do
    mkdir -p "crates/$name/out"
    rm -f "crates/$name/out/$name"
    (cd "crates/$name" && rt run < /dev/null > out/built.log 2>&1) || true
    cp "crates/$name/out/$name" "target/bin/$name"
done
