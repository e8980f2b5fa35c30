#!/bin/sh
# Installs to a temporary folder and builds and runs programs against it, as C and as C++, with gcc and,
# where there is one, clang: by compiler flags, pkg-config and CMake; with the firmware code in a shared
# library of hidden visibility; from the unpacked tarball of `make dist`. A library of another version
# must not link. Stops at the first failure.
set -eu
cd "$(dirname "$0")/../.."
tests=$PWD/tests/install
work=$(mktemp -d)
trap 'rm -rf "$work"' EXIT
version=$(sed -n 's/.* XOSERA_VERSION  *"\(.*\)"$/\1/p' include/xosera/version.h)
symbol=xosera_header_needs_library_$(echo "$version" | tr . _)
warn='-Wall -Wextra -Wpedantic -Werror'
compilers=gcc
if command -v clang >/dev/null; then
    compilers='gcc clang'
fi

fail() {
    echo "tests/install: $*"
    exit 1
}

# Runs a command without its output; shows it where the command fails.
quietly() {
    "$@" >"$work/log" 2>&1 || { cat "$work/log"; fail "failed: $*"; }
}

c_plus_plus() { # the C++ compiler beside this C compiler
    case $1 in
    gcc) echo g++ ;;
    *) echo clang++ ;;
    esac
}

# build_both CC COMPILE LINK: program.c and program.cpp with these flags, then both are run.
build_both() {
    # shellcheck disable=SC2086  # lists of flags
    quietly "$1" -std=c11 $warn $2 -o "$work/program_c" "$tests/program.c" $3
    # shellcheck disable=SC2086
    quietly "$(c_plus_plus "$1")" -std=c++17 $warn $2 -o "$work/program_cpp" "$tests/program.cpp" $3
    quietly "$work/program_c"
    quietly "$work/program_cpp"
}

# Installed to one folder and moved to another; with DESTDIR the same; uninstalled, nothing is left.
install_and_move() {
    quietly make install PREFIX="$work/first"
    mv "$work/first" "$work/prefix"
    quietly make install DESTDIR="$work/stage" PREFIX=/usr
    quietly diff -r "$work/prefix" "$work/stage/usr"
    quietly make uninstall DESTDIR="$work/stage" PREFIX=/usr
    [ -z "$(find "$work/stage" ! -type d)" ] || fail "make uninstall leaves files"
}

by_flags() {
    build_both "$1" "-I$work/prefix/include" "$work/prefix/lib/libxosera.a"
}

by_pkg_config() {
    PKG_CONFIG_PATH=$work/prefix/lib/pkgconfig
    export PKG_CONFIG_PATH
    [ "$(pkg-config --modversion xosera)" = "$version" ] || fail "xosera.pc is not of version $version"
    build_both "$1" "$(pkg-config --cflags xosera)" "$(pkg-config --libs xosera)"
}

by_cmake() {
    configure() { # the folder, the compiler, the version asked for
        CC=$2 CXX=$(c_plus_plus "$2") cmake -S "$tests" -B "$work/$1" -DCMAKE_PREFIX_PATH="$work/prefix" -DWANTED="$3"
    }
    quietly configure "cmake-$1" "$1" 1.0
    quietly cmake --build "$work/cmake-$1"
    quietly ctest --test-dir "$work/cmake-$1"
    grep -q "^Xosera_DIR:PATH=$work/prefix/lib/cmake/Xosera\$" "$work/cmake-$1/CMakeCache.txt" ||
        fail "CMake found another Xosera"
    for wanted in 2.0 "$version.1"; do
        if configure "cmake-$1" "$1" "$wanted" >"$work/log" 2>&1; then
            fail "find_package(Xosera $wanted) finds $version"
        fi
        grep -q "version: $version" "$work/log" || { cat "$work/log"; fail "find_package(Xosera $wanted)"; }
    done
}

# Firmware code in a shared library, as C and as C++; the library linked into it alone, then into the test too.
by_shared_library() {
    flags="$warn -O2 -fvisibility=hidden -I$work/prefix/include"
    library=$work/prefix/lib/libxosera.a
    for language in 'c -std=c11' 'c++ -std=c++17'; do
        # shellcheck disable=SC2086  # lists of flags
        quietly "$1" $flags -fPIC -shared -Wl,-z,defs -Wl,-z,text -o "$work/libdrawing.so" \
            -x $language "$tests/drawing.c" -x none "$library"
        for also in '' "$library"; do
            # shellcheck disable=SC2086
            quietly "$1" -std=c11 $flags -o "$work/shared" "$tests/shared.c" "$work/libdrawing.so" $also
            quietly "$work/shared"
        done
    done
}

# A library whose version symbol has another name stands for an older one.
beside_an_old_library() {
    objcopy --redefine-sym "$symbol=xosera_header_needs_library_0_9_0" "$work/prefix/lib/libxosera.a" "$work/old.a"
    for flags in -O0 -O1 -O2 '-O3 -fvisibility=hidden' '-O2 -ffunction-sections -fdata-sections -Wl,--gc-sections'; do
        for language in 'c -std=c11' 'c++ -std=c++17'; do
            # shellcheck disable=SC2086  # lists of flags
            if echo '#include "xosera_model.h"
                     int main(void) { return 0; }' |
                "$1" $warn $flags -I"$work/prefix/include" -o "$work/old" -x $language - -x none "$work/old.a" \
                    >"$work/log" 2>&1; then
                fail "$1 $flags: links beside a library of another version"
            fi
            grep -q "undefined.*$symbol" "$work/log" || { cat "$work/log"; fail "$1 $flags"; }
        done
    done
}

# The same files give the same tarball; unpacked elsewhere, it is built against.
from_tarball() {
    name=xosera-$version-x86_64-linux
    quietly make dist
    cp "build/dist/$name.tar.gz" "$work"
    quietly make dist
    quietly cmp "build/dist/$name.tar.gz" "$work/$name.tar.gz"
    tar -xzf "$work/$name.tar.gz" -C "$work"
    [ "$(cat "$work/$name/VERSION")" = "$version" ] || fail "the tarball's VERSION is not $version"
    for part in include lib share; do
        quietly diff -r "$work/prefix/$part" "$work/$name/$part"
    done
    for compiler in $compilers; do
        build_both "$compiler" "-I$work/$name/include" "$work/$name/lib/libxosera.a"
    done
}

install_and_move
for compiler in $compilers; do
    by_flags "$compiler"
    by_pkg_config "$compiler"
    by_cmake "$compiler"
    by_shared_library "$compiler"
    beside_an_old_library "$compiler"
done
from_tarball
echo "installed copy: C and C++ build and run by flags, pkg-config, CMake, shared library and tarball ($compilers)"
