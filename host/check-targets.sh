#!/usr/bin/env bash
# Checks of the builds for other platforms, after `make targets wrong-builds libraries`: what they export and need, the same bytes a second
# time, the header on each platform, and every answer and every byte of every buffer compared with the native library's. A build that this
# machine cannot run is named, and not asked.
#
#   check-targets.sh [SHEETS_FOR_WASM [SHEETS_FOR_THE_OTHERS [SEED]]]
set -euo pipefail
cd "$(dirname "$0")/.."
sheets=${1:-3000} others=${2:-2000} seed=${3:-1}
bitcode=target/bitcode windows=target/windows-x86_64 aarch64=target/linux-aarch64 wasm=target/wasm32
llvm=$bitcode/llvm
work=$(mktemp -d)
trap 'rm -rf "$work"' EXIT
strict=(-Wall -Wextra -Werror -pedantic -O2 -Iinclude)
differ=(host/differ.c host/sheets.c host/cases.c)

fail() {
    echo "targets: $1" >&2
    exit 1
}

# what each exports, and what it needs from outside
exports() { # NAME, with its symbols on standard input
    sort | diff host/symbols.txt - || fail "$1 exports other symbols than host/symbols.txt"
}
shared=$(readlink "$aarch64/$(readlink "$aarch64/libhocsimbur.so")")
"$llvm" nm -D --defined-only "$aarch64/$shared" | sed -n 's/.* T \([^@]*\).*/\1/p' | exports "the aarch64 library"
"$llvm" nm -D --undefined-only "$aarch64/$shared" | sed 's/ *U //' | grep -vxE 'mem(cpy|move|set)' \
    && fail "the aarch64 library needs other functions"
for archive in "$aarch64" "$wasm"; do
    "$llvm" nm -g --defined-only "$archive/libhocsimbur.a" | sed -n 's/.* T //p' | exports "$archive/libhocsimbur.a"
done
"$llvm" readobj --coff-exports "$windows/hocsimbur.dll" | sed -n 's/^ *Name: //p' | exports hocsimbur.dll
"$llvm" nm -g "$windows/hocsimbur.lib" 2>/dev/null | sed -n 's/^[0-9a-f]* T //p' | grep -v '^__imp_' | exports hocsimbur.lib
"$llvm" readobj --coff-imports "$windows/hocsimbur.dll" | sed -n 's/^ *\(Name\|Symbol\): \([^ ]*\).*/\2/p' >"$work/needs"
[ "$(sed -n 1p "$work/needs")" = ntdll.dll ] && ! sed 1d "$work/needs" | grep -vxE '__chkstk|mem(cpy|move|set)' \
    || fail "hocsimbur.dll needs other functions"
version=${shared#libhocsimbur.so.}
holds() { # FILE WORD, in UTF-16
    python3 -c 'import sys; sys.exit(sys.argv[2].encode("utf-16-le") not in open(sys.argv[1], "rb").read())' "$@"
}
holds "$windows/hocsimbur.dll" ProductVersion && holds "$windows/hocsimbur.dll" "$version" || fail "hocsimbur.dll shows another version"
# Each platform's text is the original but for its head and the lines of attributes. On WebAssembly each pointer that may be missing is loaded
# by its parts, here joined again, and the library's copy goes by its loop, as the original's here: without the test of its places.
joined() { # on standard input
    sed -E '/^  %apart\.[0-9]+\.byte = /{
        N; N; N; N
        s/^  (%apart\.[0-9]+)\.byte = load i8, ptr ([^\n]*), align 8\n  \1\.after = getelementptr inbounds i8, ptr \2, i64 8\n  \1\.ptr = load ptr, ptr \1\.after, align 8\n  \1\.half = insertvalue \{ i8, ptr \} poison, i8 \1\.byte, 0\n  ([^\n]*) = insertvalue \{ i8, ptr \} \1\.half, ptr \1\.ptr, 1$/  \3 = load { i8, ptr }, ptr \2, align 8/
    }'
}
by_loops() { # on standard input
    awk '/^define internal void @"core::ptr::copy_drop::copy_bits::<i[0-9]+>"/ { copy = 1 } /^}/ { copy = 0 }
        copy && / = ptrtoaddr ptr %a[01] to i64$/ { if (++addresses == 2) left = 2; next }
        left > 0 { left--; next }
        copy && addresses == 2 && /^  br i1 / { print "  br label " substr($5, 1, length($5) - 1); addresses = 0; once = 5; }
        once > 0 { once--; next }
        / = load \{ i8, ptr \}, / { sub(/(, ![a-z_.]+ ![0-9]+)+$/, "") }
        { print }'
}
same_but_head() { # MODULE PLATFORM, with its text on standard input
    if [ "$2" = wasm ]; then
        joined | diff <(by_loops <"$bitcode/$1.ll") - >"$work/head" || true
    else
        diff "$bitcode/$1.ll" - >"$work/head" || true
    fi
    ! grep '^[<>]' "$work/head" | grep -vE '^[<>] (target (datalayout|triple) = |attributes #[0-2] = )' >"$work/said"
}
for module in c_entry c_questions c_lines; do
    for platform in windows aarch64 wasm; do
        text=$bitcode/$module.$platform.ll
        same_but_head $module $platform <"$text" || fail "$module.$platform.ll differs in more than its head"
        # a changed number is seen, at each of three places
        for number in 1 50 300; do
            awk -v n=$number '/, align 8/ && / = load / && ++k == n { sub(/align 8/, "align 1") } { print }' "$text" >"$work/changed.ll"
            ! cmp -s "$text" "$work/changed.ll" || fail "$module.$platform.ll has no load $number to change"
            ! same_but_head $module $platform <"$work/changed.ll" || fail "a changed line of $module.$platform.ll is not seen"
        done
    done
    sed '0,/\.after = /s/\(\.after = .*\), i64 8$/\1, i64 4/' "$bitcode/$module.wasm.ll" >"$work/changed.ll"
    ! same_but_head $module wasm <"$work/changed.ll" || fail "a part that is loaded from another place is not seen"
done
echo "targets: each exports the $(wc -l <host/symbols.txt) symbols of host/symbols.txt, and needs memcpy, memmove, memset, __chkstk at most"

# the same bytes again, in another folder
mkdir "$work/bitcode"
cp -p $bitcode/c_*.bc "$work/bitcode"
make -s targets BITCODE="$work/bitcode" WINDOWS="$work/windows" AARCH64="$work/aarch64" WASM="$work/wasm" >/dev/null
for pair in "$windows:windows" "$aarch64:aarch64" "$wasm:wasm"; do
    diff -r "${pair%%:*}" "$work/${pair#*:}" || fail "another build has other bytes"
done
echo "targets: a second build has the same bytes"

# a pointer taken for a number is reported, wherever it stands
for number in 3 20 77; do
    awk -v n="$number" '/ = load ptr, / && ++k == n { sub(/load ptr,/, "load i64,") } { print }' "$bitcode/c_entry.parts.ll" >"$work/changed.ll"
    ! python3 host/layout.py "$work/changed.ll" >/dev/null 2>&1 || fail "layout.py passes a pointer that is loaded as a number"
done

# the header: the four platforms are taken, each other one is refused by its name
include=$(${CC:-cc} -print-file-name=include)
header() { # TRIPLE FLAGS..
    echo '#include <hocsimbur.h>
typedef char size_has_64_bits[sizeof(hocsimbur_size) == 8 ? 1 : -1];
hocsimbur_size place[2];' | "$llvm" clang --target="$1" "${@:2}" -ffreestanding -nostdinc -isystem "$include" -Wall -Wextra -Werror \
        -pedantic -Iinclude -fsyntax-only -x c -std=c99 - 2>"$work/said"
}
for target in x86_64-linux-gnu x86_64-linux-musl aarch64-linux-gnu x86_64-pc-windows-msvc x86_64-w64-windows-gnu wasm32-unknown-unknown \
    wasm32-wasip1; do
    header "$target" || fail "the header for $target: $(cat "$work/said")"
done
refused=0
while read -r target name; do
    # shellcheck disable=SC2086
    ! header ${target/,/ } || fail "the header takes $target"
    grep -q "error: \"hocsimbur: no library for $name" "$work/said" || fail "the header for $target: $(cat "$work/said")"
    refused=$((refused + 1))
done <<'END'
x86_64-linux-gnux32 x32
i686-linux-gnu this platform; there is one for Linux on x86-64 and aarch64, Windows on x86-64, and wasm32
arm-linux-gnueabihf this platform
riscv64-linux-gnu this platform
powerpc64-linux-gnu this platform
x86_64-unknown-freebsd this platform
aarch64_be-linux-gnu big-endian or 32-bit aarch64
aarch64-linux-gnu,-D__ILP32__ big-endian or 32-bit aarch64
i686-pc-windows-msvc 32-bit Windows
i686-w64-windows-gnu 32-bit Windows
aarch64-pc-windows-msvc Windows on Arm
arm64ec-pc-windows-msvc Windows on Arm
x86_64-apple-macos Apple systems
arm64-apple-ios Apple systems
wasm64-unknown-unknown wasm64
END
echo "targets: the header takes the four platforms and refuses $refused others by name"

# the native library as both sides; a changed bit of a tape is detected
${CC:-cc} -std=c11 "${strict[@]}" -Ihost "${differ[@]}" target/host/libhocsimbur.a -o "$work/differ"
python3 host/inputs.py . | "$work/differ" tape-of >"$work/stored"
"$work/differ" tape "$seed" "$sheets" >"$work/random"
"$work/differ" tape "$seed" "$others" >"$work/fewer"
"$work/differ" replay <"$work/stored" >/dev/null || fail "the native library disagrees with itself"
head -c 300000 "$work/fewer" | "$work/differ" replay >/dev/null 2>&1 && fail "a tape that is cut off is not detected"
python3 - "$work/fewer" "$work/changed" <<'PY'
import sys
data = bytearray(open(sys.argv[1], "rb").read())
data[-70] ^= 4
open(sys.argv[2], "wb").write(data)
PY
"$work/differ" replay <"$work/changed" >/dev/null 2>&1 && fail "a changed bit of a tape is not detected"

ask() { # NAME RANDOM_TAPE COMMAND..
    local name=$1 tape=$2
    shift 2
    "$@" <"$work/stored" >"$work/said" || fail "$name, on the stored inputs"
    echo "targets: $name, stored inputs: $(head -n 1 "$work/said")"
    "$@" <"$tape" >"$work/said" || fail "$name, on random sheets of seed $seed"
    echo "targets: $name, random sheets: $(cat "$work/said")"
}
lines_of() { # NAME COMMAND..: the example's stored lines, and its exit status with a refusal
    local name=$1 status=0
    shift
    "$@" tests/sample.csv | tr -d '\r' | diff examples/panel/sample.out - || fail "$name: other lines of the sample"
    "$@" examples/panel/refused.csv >"$work/said" || status=$?
    [ "$status" -eq 1 ] || fail "$name: exit status $status of a refusal"
    tr -d '\r' <"$work/said" | diff examples/panel/refused.out - || fail "$name: other lines of a refusal"
    echo "targets: $name prints the stored lines: $("$@" tests/sample.csv | tr -d '\r' | head -n 1)"
}

# WebAssembly: the tapes, each wrong build, the module in JavaScript, the example, and a program in C
ask hocsimbur.wasm "$work/random" node host/replay.mjs "$wasm/hocsimbur.wasm"
"$work/differ" tape "$seed" 100 | node host/replay.mjs "$bitcode/wrong/none-changed.wasm" >/dev/null || fail "a build that is not optimised"
wrong=0
for build in $(make -s wrong-build-names); do
    if node host/replay.mjs "$bitcode/wrong/$build.wasm" first <"$work/stored" >/dev/null 2>"$work/said"; then
        node host/replay.mjs "$bitcode/wrong/$build.wasm" first <"$work/random" >/dev/null 2>"$work/said" && fail "$build is not detected"
    fi
    echo "targets: $build is detected: $(grep -m 1 -E '^replay: |Error' "$work/said")"
    wrong=$((wrong + 1))
done
echo "targets: all $wrong wrong builds are detected"
python3 javascript/tests/answers.py . >"$work/answers.json"
HOCSIMBUR_WASM=$wasm ANSWERS=$work/answers.json SHORT_STACK=$bitcode/wrong/short-stack.wasm \
    OTHER_VERSION=$bitcode/wrong/c_questions/another-version.wasm node --test javascript/tests/tests.mjs >"$work/said" \
    || fail "hocsimbur.mjs: $(cat "$work/said")"
grep -qE '^# pass [1-9]' "$work/said" || fail "hocsimbur.mjs: no test has run"
questions=$(grep -o '"method"' "$work/answers.json" | wc -l)
echo "targets: hocsimbur.mjs: $(sed -n 's/^# pass //p' "$work/said") tests pass, one of them on $questions stored questions"
lines_of examples/panel.mjs node examples/panel.mjs "$wasm/hocsimbur.mjs"
"$llvm" clang --target=wasm32-unknown-unknown "${strict[@]}" -std=c11 -ffreestanding -nostdinc -isystem "$include" -c host/wasm.c \
    -o "$work/wasm.o"
"$llvm" wasm-ld --no-entry --fatal-warnings --stack-first -z stack-size=262144 "$work/wasm.o" "$wasm/libhocsimbur.a" -o "$work/program.wasm"
node host/wasm.mjs "$work/program.wasm" tests/sample.csv || fail "a program in C for wasm32"

# the releases, unpacked; `make dist` is part of `make check`
make -s dist >"$work/said"
sed 's/^/targets: /' "$work/said"
mkdir "$work/empty"
for platform in linux-aarch64 windows-x86_64 wasm32; do
    python3 -c 'import shutil, sys; shutil.unpack_archive(sys.argv[1], sys.argv[2])' target/dist/*-$platform.* "$work/empty"
    mv "$work"/empty/hocsimbur-*-"$platform" "$work/empty/$platform"
    (
        cd "$work/empty/$platform"
        sha256sum --quiet -c SHA256SUMS
        diff <(find . -type f ! -name SHA256SUMS | sort) <(sed 's/^[0-9a-f]*  //' SHA256SUMS | sort)
    ) || fail "the checksums of $platform"
done
lines_of "the release for wasm32" node "$work/empty/wasm32/examples/panel.mjs" "$work/empty/wasm32/hocsimbur.mjs"

# Windows and aarch64, if installed
if command -v x86_64-w64-mingw32-gcc >/dev/null && command -v wine >/dev/null; then
    export WINEPREFIX=${WINEPREFIX:-$PWD/target/wine} WINEDEBUG=-all
    wineboot -i >/dev/null 2>&1 || fail "wine does not start"
    cp "$windows/hocsimbur.dll" "$work"
    compile() { x86_64-w64-mingw32-gcc -std=c11 "${strict[@]}" -D__USE_MINGW_ANSI_STDIO=1 "$@"; }
    compile -Ihost "${differ[@]}" "$windows/hocsimbur.lib" -o "$work/differ.exe"
    compile examples/panel.c "$windows/hocsimbur.lib" -o "$work/panel.exe"
    unpacked=$work/empty/windows-x86_64
    compile -I"$unpacked/include" "$unpacked/examples/panel.c" "$unpacked/lib/hocsimbur.lib" -o "$unpacked/lib/panel.exe"
    ask hocsimbur.dll "$work/fewer" wine "$work/differ.exe" replay
    lines_of "the example under wine" wine "$work/panel.exe"
    lines_of "the release for Windows under wine" wine "$unpacked/lib/panel.exe"
else echo "targets: NOT RUN: hocsimbur.dll, which needs wine and mingw (x86_64-w64-mingw32-gcc)"; fi
if command -v aarch64-linux-gnu-gcc >/dev/null && command -v qemu-aarch64 >/dev/null; then
    emulated=(qemu-aarch64 -L /usr/aarch64-linux-gnu -E LD_LIBRARY_PATH="$PWD/$aarch64")
    aarch64-linux-gnu-gcc -std=c11 "${strict[@]}" -Ihost "${differ[@]}" -L"$aarch64" -lhocsimbur -o "$work/differ.aarch64"
    aarch64-linux-gnu-gcc -std=c11 "${strict[@]}" examples/panel.c -L"$aarch64" -lhocsimbur -o "$work/panel.aarch64"
    aarch64-linux-gnu-gcc -std=c11 "${strict[@]}" examples/panel.c "$aarch64/libhocsimbur.a" -o "$work/panel-static.aarch64"
    ask "the aarch64 library" "$work/fewer" "${emulated[@]}" "$work/differ.aarch64" replay
    lines_of "the example under qemu" "${emulated[@]}" "$work/panel.aarch64"
    lines_of "the example under qemu, by the archive" "${emulated[@]}" "$work/panel-static.aarch64"
    make -s -C "$work/empty/linux-aarch64" check CC=aarch64-linux-gnu-gcc RUN="qemu-aarch64 -L /usr/aarch64-linux-gnu"
else echo "targets: NOT RUN: the aarch64 library, which needs qemu-aarch64 and aarch64-linux-gnu-gcc"; fi
for file in target/host "$aarch64"; do files+=("$file/$shared" "$file/libhocsimbur.a"); done
echo "targets: bytes:"
stat -c 'targets: %8s %n' "${files[@]}" "$windows"/hocsimbur.{dll,lib} "$wasm"/hocsimbur.wasm "$wasm"/libhocsimbur.a
