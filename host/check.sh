#!/usr/bin/env bash
# Checks of the C library, after `make libraries panel harness sanitized wrong`: what is exported, the example's lines, an installed
# copy in C and C++, a
# minute's share of the harness, and a release unpacked in an empty folder.
set -euo pipefail
cd "$(dirname "$0")/.."
out=target/host
work=$(mktemp -d)
trap 'rm -rf "$work"' EXIT

fail() {
    echo "host: $1" >&2
    exit 1
}

# what both libraries export, and what the shared one needs
nm -D --defined-only "$out/libhocsimbur.so" | awk '$2 == "T" { sub(/@.*/, "", $3); print $3 }' | sort >"$work/exported"
diff host/symbols.txt "$work/exported" || fail "the shared library exports other symbols than host/symbols.txt"
nm -g --defined-only "$out/libhocsimbur.a" | awk '$2 == "T" { print $3 }' | sort >"$work/exported"
diff host/symbols.txt "$work/exported" || fail "the archive exports other symbols than host/symbols.txt"
version=$(sed -n 's/^.define HOCSIMBUR_VERSION \([0-9]*\).*/\1/p' include/hocsimbur.h)
readelf -d "$out/libhocsimbur.so" | grep -q "soname: \[libhocsimbur.so.$((version / 10000))\]" || fail "another soname"
echo "host: exported are the $(wc -l <host/symbols.txt) symbols of host/symbols.txt"

# the sources by other eyes; one that this machine does not have is named, and not asked
asked=gcc
here() { command -v "$1" >/dev/null && asked="$asked, $1"; }
compilers=("gcc -x c -std=c99" "g++ -x c++ -std=c++98")
if here clang; then
    compilers+=("clang -x c -std=c99" "clang -x c++ -std=c++98")
    clang -Wall -Wextra -Werror -pedantic -std=c11 -Iinclude -fsyntax-only examples/panel.c host/[!w]*.c
fi
for flags in "${compilers[@]}"; do
    # shellcheck disable=SC2086
    echo '#include <hocsimbur.h>' | $flags -Wall -Wextra -Werror -pedantic -Iinclude -fsyntax-only - || fail "the header with $flags"
done
if here cppcheck; then
    cppcheck --quiet --error-exitcode=1 --std=c11 --enable=warning,portability -Iinclude --suppress=missingIncludeSystem examples host \
        || fail "cppcheck"
fi
if here man; then
    for page in host/hocsimbur.[13]; do
        man --warnings -l "$page" 2>"$work/told" >/dev/null || fail "the man page $page"
        [ ! -s "$work/told" ] || fail "the man page $page: $(cat "$work/told")"
    done
fi
echo "host: $asked have no report"

# the example prints its stored lines, and with a refusal its exit status is 1
lines_of() { # SHEET STORED STATUS COMMAND..
    local sheet=$1 stored=$2 status=0
    shift 2
    local wanted=$1
    shift
    "$@" "$sheet" >"$work/lines" || status=$?
    [ "$status" -eq "$wanted" ] || fail "$sheet: exit status $status"
    diff "$stored" "$work/lines" || fail "$sheet: other lines than $stored"
}
lines_of tests/sample.csv examples/panel/sample.out 0 "$out/panel"
lines_of crates/rows/stdin examples/panel/rows.out 0 "$out/panel"
lines_of examples/panel/refused.csv examples/panel/refused.out 1 "$out/panel"
valgrind=(valgrind --quiet --error-exitcode=9 --leak-check=full)
lines_of tests/sample.csv examples/panel/sample.out 0 "${valgrind[@]}" "$out/panel"
lines_of examples/panel/refused.csv examples/panel/refused.out 1 "${valgrind[@]}" "$out/panel"
status=0
"$out/panel" tests/sample.csv >/dev/full 2>"$work/told" || status=$?
[ "$status" -eq 2 ] && grep -q 'No space left' "$work/told" || fail "the example does not tell a failed write"
echo "host: the example's lines are the stored ones, a failed write is told, and valgrind has no report"

# an installed copy serves C and C++ by both libraries, and uninstall leaves nothing
make -s install PREFIX=/usr LIBDIR=/usr/lib64 DESTDIR="$work/root"
[ -f "$work/root/usr/lib64/pkgconfig/hocsimbur.pc" ] || fail "LIBDIR and DESTDIR are not kept"
make -s uninstall PREFIX=/usr LIBDIR=/usr/lib64 DESTDIR="$work/root"
[ -z "$(find "$work/root" ! -type d)" ] || fail "uninstall leaves files"
make -s install PREFIX="$work/prefix"
export PKG_CONFIG_PATH="$work/prefix/lib/pkgconfig" LD_LIBRARY_PATH="$work/prefix/lib"
cat >"$work/host.cpp" <<'END'
#include <hocsimbur.h>
#include <vector>
int main(int count, char **words) {
    std::vector<uint8_t> none, rows(HOCSIMBUR_ROW_BYTES, 255);
    const char *text = count > 1 ? words[1] : "";
    if (hocsimbur_rows(none.empty() ? 0 : &none[0], none.size(), &rows[0], rows.size()) != -HOCSIMBUR_REFUSED_TEXT)
        return 1;
    std::vector<uint8_t> sheet;
    for (const char *c = text; *c; c++)
        sheet.push_back(static_cast<uint8_t>(*c));
    if (hocsimbur_rows(&sheet[0], sheet.size(), &rows[0], rows.size()) != 1)
        return 2;
    bool station = hocsimbur_read(&rows[0], 0, HOCSIMBUR_STATION) == 7;
    return station && hocsimbur_read(&rows[0], 0, HOCSIMBUR_VERDICT) == HOCSIMBUR_UNSAFE ? 0 : 3;
}
END
for name in hocsimbur hocsimbur-static; do
    flags=$(pkg-config --cflags "$name")
    libs=$(pkg-config --libs "$name")
    # shellcheck disable=SC2086
    cc -Wall -Wextra -Werror -pedantic -std=c11 $flags examples/panel.c $libs -o "$work/panel"
    lines_of tests/sample.csv examples/panel/sample.out 0 "$work/panel"
    # shellcheck disable=SC2086
    g++ -Wall -Wextra -Werror -pedantic -std=c++98 $flags "$work/host.cpp" $libs -o "$work/host"
    "$work/host" "$(head -2 tests/sample.csv)
" || fail "another answer from C++ by $name"
done
unset PKG_CONFIG_PATH LD_LIBRARY_PATH
status=0
(cd / && env -u HOCSIMBUR_LIBRARY -u PYTHONPATH "$work/prefix/bin/hocsimbur" verdict --csv - <"$OLDPWD/crates/verdict/stdin") >"$work/lines" \
    || status=$?
[ "$status" -eq 2 ] && diff crates/verdict/stdout "$work/lines" || fail "the installed command prints something else"
echo "host: an installed copy serves C and C++ by both libraries, and people by the command hocsimbur"

# what must hold of every answer, and each wrong entry told
"$out/harness" edges
"$out/sanitized" edges >"$work/told"
"$out/harness" random 1 400000
"$out/sanitized" random 2 100000
"${valgrind[@]}" "$out/harness" random 4 2000
for name in $(make -s wrong-names); do
    status=0
    "$out/wrong-$name" random 3 20000 >"$work/told" 2>&1 || status=$?
    [ "$status" -eq 1 ] || fail "$name is not told"
    echo "host: $name is told: $(cat "$work/told")"
done
status=0
"$out/harness" time /dev/null 2>"$work/told" || status=$?
[ "$status" -eq 1 ] && grep -q 'no value line' "$work/told" || fail "an empty sheet is timed"

# the separate calculators judge, and tell a wrong entry
python3 -m tests.host.row_entry --seed 1 --count 400
python3 -m tests.host.row_entry --seed 1 --count 40 --harness "$out/wrong-big_endian" >"$work/told" && fail "the calculator does not tell big_endian"
grep -Eq ', ([1-9][0-9]*) accepted, .* \1 sheets disagree$' "$work/told" \
    || fail "the calculator does not tell big_endian in each sheet with rows"
python3 -m tests.host.entries

# a release, unpacked in an empty folder and checked with nothing of the kit on the path
make -s dist
archive=$(echo target/dist/*-linux-x86_64.tar.gz)
mkdir "$work/empty"
tar -C "$work/empty" -xzf "$archive"
env -i PATH=/usr/bin:/bin make -s -C "$work"/empty/* check
bytes_of() { stat -L -c %s "$1"; }
echo "host: $archive, $(bytes_of "$archive") bytes; libraries of $(bytes_of "$out/libhocsimbur.a") and $(bytes_of "$out/libhocsimbur.so") bytes"

"$out/harness" stack
"$out/harness" time crates/rows/stdin
