#!/bin/sh
# install.sh: installs the library into a temporary folder, and compiles and runs client.c against it by pkg-config's flags, as C99, C11 and C++11,
# with each of gcc and clang that is there. Where pkg-config is missing, the flags come from the .pc file's own text. The installed tidy_trace tidies a
# trace. Then what the header says of the library's symbols is held to the archive, and uninstalling must leave no file.
set -eu
export LC_ALL=C
here=$(cd "$(dirname "$0")" && pwd)
top=$here/../..
folder=$(mktemp -d)
trap 'rm -rf "$folder"' EXIT
warnings='-Wall -Wextra -pedantic -Werror'

fail() {
    echo "install: $*"
    exit 1
}

same() { # same WHAT SEEN WANTED
    [ "$2" = "$3" ] || fail "$1: '$2' and not '$3'"
}

there() {
    command -v "$1" > /dev/null
}

told() { # told FIELD: a field of the .pc file, its variables put in
    (
        eval "$(grep '^[a-z]*=' "$pc")"
        eval "echo $(sed -n "s/^$1: //p" "$pc")"
    )
}

files() {
    (cd "$1" && find . ! -type d | sort | tr '\n' ' ')
}

make -s --no-print-directory -C "$top" install PREFIX=/opt/sam47 DESTDIR="$folder/package"
same "what a package holds" "$(files "$folder/package")" "./opt/sam47/bin/tidy_trace ./opt/sam47/include/sam47.h ./opt/sam47/lib/libsam47.a ./opt/sam47/lib/pkgconfig/sam47.pc "

prefix=$folder/prefix
pc=$prefix/lib/pkgconfig/sam47.pc
make -s --no-print-directory -C "$top" install PREFIX="$prefix"
version=$(told Version)
flags="$(told Cflags) $(told Libs)"
if there pkg-config; then
    export PKG_CONFIG_PATH="$prefix/lib/pkgconfig"
    same "pkg-config's version" "$(pkg-config --modversion sam47)" "$version"
    same "pkg-config's flags" "$(pkg-config --cflags --libs sam47 | sed 's/ *$//')" "$flags"
else
    echo "install: no pkg-config here, so the flags are those of the .pc file's text"
fi
[ -n "$version" ] || fail "no version in sam47.pc"
grep -q "^## \[$version\]" "$top/CHANGELOG.md" || fail "CHANGELOG.md does not have version $version"

tried=
client() { # client LANGUAGE STANDARD COMPILER...: with each compiler that is there
    language=$1 standard=$2
    shift 2
    for compiler; do
        there "$compiler" || continue
        (cd "$folder" && "$compiler" -x "$language" -std="$standard" $warnings "$here/client.c" -x none $flags -o client) ||
            fail "$compiler refuses client.c as $standard"
        "$folder/client" "$version" || fail "client.c as $standard, made by $compiler"
        tried="$tried $compiler/$standard"
    done
}
client c c99 cc gcc clang
client c c11 cc gcc clang
case $tried in *c11*) ;; *) fail "no C compiler" ;; esac
client c++ c++11 c++ g++ clang++
case $tried in *c++11*) ;; *) echo "install: no C++ compiler here, so the header is not tried as C++" ;; esac

# A reset at 2, written as a wait of 1 and another.
printf '\000\001\001\000\200\001\001\000' > "$folder/trace.bin"
same "what tidy_trace writes" "$(cd "$folder" && "$prefix/bin/tidy_trace" | od -An -tx1 | tr -d ' ')" "80010200"

# nm's letters: T is a function for others, U a name that is needed, t and r the library's own code and constants; any other would be writable data.
symbols() { # symbols LETTERS
    nm "$prefix/lib/libsam47.a" | sed -n "s/^[0-9a-f ]* \\([$1]\\) \\(.*\\)/\\2/p" | sort | tr '\n' ' '
}
same "what the library offers" "$(symbols T)" "sam47_dispatch sam47_fresh sam47_litres sam47_plain_run sam47_predecode sam47_table_run sam47_tidy "
same "what the library needs" "$(symbols U)" "memcpy memset "
same "what the library has besides functions and constants" "$(symbols 'A-QSV-Za-qsu-z')" ""

make -s --no-print-directory -C "$top" uninstall PREFIX="$prefix"
same "what uninstalling leaves" "$(files "$prefix")" ""
echo "install: version $version, tried by$tried"
