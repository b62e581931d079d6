#!/bin/sh
# test.sh: builds and runs what `rt ci` doesn't: the static library, the C programs, the assembly that two programs
# print, the programs on examples/, and what the documents name; with upstream's sources in the folder UPSTREAM the
# crates for cargo too. `make test` calls it. The status is 0 only if nothing differs.
set -u
here=$(cd "$(dirname "$0")" && pwd)
top=$(dirname "$here")
cc=${CC:-cc}

for tool in "$cc" python3 rt; do
    if ! command -v "$tool" >/dev/null; then
        echo "make test needs a C compiler, python3 and rt, and finds no $tool"
        exit 2
    fi
done
kit=$(dirname "$(rt doc)")
memory=${LIBC_C:-$kit/c/liblibc_c.a}
made=$(mktemp -d)
trap 'rm -rf "$made"' EXIT
passed=0
failed=0

# said STATUS WHAT: counts a step, and says how it ended.
said() {
    if [ "$1" -eq 0 ]; then
        passed=$((passed + 1))
        echo "ok      $2"
    else
        failed=$((failed + 1))
        echo "FAILED  $2"
    fi
}

# step WHAT COMMAND..: runs a command, and shows what it printed if it fails.
step() {
    what=$1
    shift
    "$@" >"$made/log" 2>&1
    ended=$?
    [ "$ended" -eq 0 ] || cat "$made/log"
    said "$ended" "$what"
    return "$ended"
}

# program NAME: builds the program of crates/NAME, if it isn't built, and puts it among the programs of the test.
program() {
    (cd "$top/crates/$1" && rt run </dev/null) >"$made/log" 2>&1
    grep -q "^rt: running out/$1" "$made/log" && cp "$top/crates/$1/out/$1" "$made/bin/$1"
    ended=$?
    [ "$ended" -eq 0 ] || cat "$made/log"
    said "$ended" "the program $1 is built"
    return "$ended"
}

# compiled_c NAME SOURCE..: compiles a C program.
compiled_c() {
    name=$1
    shift
    step "$name.c compiles without a warning" "$cc" -std=c11 -Wall -Wextra -Werror -O2 -o "$made/bin/$name" "$@"
}

# Runs three programs that `compile` compiled beside the same in C.
programs() {
    for name in sieve hash sort; do
        "$made/bin/compile" -o "$made/$name.s" "$here/programs/$name.txt" || return 1
        sed "s/compiled/compiled_$name/" "$made/$name.s" >"$made/compiled_$name.s" || return 1
    done
    for level in O0 O1; do
        "$cc" -std=c11 -Wall -Wextra -Werror "-$level" "-DLEVEL=$level" -c -o "$made/$level.o" "$here/programs/reference.c" || return 1
    done
    "$cc" -std=c11 -Wall -Wextra -Werror -O2 -D_POSIX_C_SOURCE=200809L -o "$made/bin/programs" "$here/programs/programs.c" \
        "$made/O0.o" "$made/O1.o" -x assembler "$made/compiled_sieve.s" "$made/compiled_hash.s" "$made/compiled_sort.s" && "$made/bin/programs"
}

# Runs each line `$ COMMAND` of test.txt in a copy of the folder examples with three more texts, and writes that line,
# what the command wrote, each line on standard error behind a `!`, and its status if that isn't 0.
transcript() {
    cp -r "$top/examples" "$made/examples" && cd "$made/examples" || return 1
    cp "$top/crates/ra2_text/data/wrong_way.txt" "$top"/crates/compile/data/*.txt . || return 1
    grep '^\$ ' "$here/test.txt" | while IFS= read -r line; do
        printf '%s\n' "$line"
        PATH="$made/bin:$PATH" sh -c "${line#??}" 2>"$made/err" </dev/null
        ended=$?
        sed 's/^/! /' "$made/err"
        [ "$ended" -eq 0 ] || echo "status $ended"
    done
}

# Packs the library, and builds demo.c from the archive alone, over each form of the library.
packed() (
    make -C "$here" dist LIB="$library" DISTDIR="$made" && cd "$made" && tar -xzf regalloc2_c-*.tar.gz && cd regalloc2_c-*[0-9a-f] &&
        sha256sum --quiet -c SHA256SUMS && cmp LICENSE "$top/LICENSE" &&
        "$cc" -Iinclude -o demo examples/demo.c lib/libregalloc2_c.a lib/libregalloc2_c_heap.a && ./demo examples/loop.json &&
        "$cc" -Iinclude -o demo examples/demo.c -Llib -lregalloc2_c -Wl,-rpath,"$PWD/lib" && ./demo examples/loop.txt
)

# Whether the installed library says which commit it was built from, and writes no more of that than fits.
build_said() {
    cat >"$made/build.c" <<'END'
#include <regalloc2_c.h>
#include <stdio.h>
int main(void) {
    uint8_t text[200], short_text[4] = {0};
    size_t len = regalloc2_c_build(text, sizeof text);
    int is_cut = regalloc2_c_build(short_text, 3) == len && short_text[3] == 0 && short_text[2] == text[2];
    printf("%.*s\n", (int)len, (const char *)text);
    return !is_cut || regalloc2_c_build(NULL, 0) != len;
}
END
    "$cc" -std=c11 -Wall -Wextra -Werror -I"$made/installed/include" -o "$made/bin/build" "$made/build.c" "$made/installed/lib/libregalloc2_c.a" &&
        "$made/bin/build" | grep -E "^[0-9.]+ $(git -C "$top" rev-parse --short HEAD)(, with uncommitted changes)?, proved\$"
}

# Whether header, installed library and programs have the version of CHANGELOG.md.
versions() {
    version=$(sed -n 's/^## \([0-9.]*\)$/\1/p' "$top/CHANGELOG.md" | head -n 1)
    grep "^#define RA2_RELEASE \"$version\"\$" "$here/regalloc2_c.h" && grep "^Version: $version\$" "$made/installed/lib/pkgconfig/regalloc2_c.pc" &&
        [ "$("$made/bin/ra2_text" --version)" = "ra2_text $version" ] && [ "$("$made/bin/compile" --version)" = "compile $version" ]
}

mkdir "$made/bin"
step "what the documents name is there, and their commands are run" python3 "$top/tools/check_docs.py"
echo "If the libraries aren't proved yet, the first step proves them, which takes most of an hour on four cores."
library=$top/crates/regalloc2_c/out/libregalloc2_c.a
(cd "$top/crates/regalloc2_c" && step "the static library is built" rt lib) || exit 1
passed=$((passed + 1))
for name in ra2 ra2_text example_toy compile; do
    program "$name" || exit 1
done

compiled_c demo "$here/demo.c" "$library" "$memory" || exit 1
for name in demo jit tools; do
    step "$name.c compiles as C99" "$cc" -std=c99 -pedantic -Wall -Wextra -Werror -fsyntax-only "$here/$name.c"
    if command -v "${CXX:-c++}" >/dev/null; then
        step "$name.c compiles as C++" "${CXX:-c++}" -std=c++11 -Wall -Wextra -Werror -fsyntax-only -x c++ "$here/$name.c"
    fi
done
compiled_c tools -g -fsanitize=address,undefined "$here/tools.c" "$here/regalloc2_c_heap.c" "$library" &&
    step "the builder and the reader, under two sanitizers" "$made/bin/tools"
compiled_c jit "$here/jit.c" "$library" "$memory"
compiled_c errors -pthread "$here/errors.c" "$library" &&
    step "each status once, from ten threads" "$made/bin/errors"
compiled_c random -g -fsanitize=address "$here/random.c" "$here/regalloc2_c_heap.c" "$library" &&
    step "10,000 functions at random, under the address sanitizer" "$made/bin/random" 10000
step "the library is installed" make -C "$here" install PREFIX="$made/installed"
PKG_CONFIG_PATH="$made/installed/lib/pkgconfig"
export PKG_CONFIG_PATH
if command -v pkg-config >/dev/null; then
    # shellcheck disable=SC2046
    compiled_c installed "$here/demo.c" $(pkg-config --cflags --libs regalloc2_c)
fi
step "the library is packed, and demo.c is built from the archive" packed
step "the versions agree" versions
step "the library says which commit it is of" build_said
"$made/bin/example_toy" >"$made/toy.s" && compiled_c toy "$here/toy.c" -x assembler "$made/toy.s"
"$made/bin/compile" "$top/crates/compile/data/sum.txt" >"$made/compiled.s" &&
    compiled_c compiled "$here/compiled.c" -x assembler "$made/compiled.s"

step "refuse.c compiles" "$cc" -O2 -shared -fPIC -o "$made/refuse.so" "$top/tools/refuse.c" -ldl
REFUSE=$made/refuse.so
export REFUSE
transcript >"$made/transcript"
step "the programs print what test.txt says" diff "$here/test.txt" "$made/transcript"
step "1,000 modules end as compile says of them" "$here/compare.sh" "$made/bin/compile" 1000
step "sieve, hash and sort return what they return in C" programs && sed 's/^/        /' "$made/log"
if [ -n "${UPSTREAM:-}" ]; then
    step "the tests of the crates for cargo" env REGALLOC2_C="$top/crates/regalloc2_c/out" RA2="$made/bin/ra2" "$top/cargo/test.sh" "$UPSTREAM"
else
    echo "not run the tests of the crates for cargo: UPSTREAM names no folder with upstream's sources"
fi

echo "$passed passed, $failed failed"
[ "$failed" -eq 0 ]
