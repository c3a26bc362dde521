#!/usr/bin/env bash
# The folder of a release, for a customer without the Rattle kit: dist.sh PLATFORM FOLDER VERSION PROGRAM..
set -euo pipefail
cd "$(dirname "$0")/.."
platform=$1 folder=$2 version=$3
shift 3
shared=libhocsimbur.so.$version
soname=libhocsimbur.so.${version%%.*}

# what every release has
mkdir -p "$folder"/{include,lib,docs,examples/panel,examples/site}
install -m 644 include/hocsimbur.h "$folder/include/"
install -m 644 docs/{manual,commands,api,proofs,specification}.md "$folder/docs/"
install -m 644 CHANGELOG.md LICENSE target/desk/hocsimbur.html "$folder/"
install -m 644 examples/*.csv examples/panel.c examples/panel.mjs tests/sample.csv "$folder/examples/"
install -m 644 examples/site/*.csv "$folder/examples/site/"
install -m 644 examples/panel/sample.out examples/panel/refused.csv examples/panel/refused.out "$folder/examples/panel/"
# what the program of verdicts prints of the sample, for the release's own check
target/bin/verdict <tests/sample.csv >"$folder/examples/sample.verdicts"

linux() { # FOLDER_OF_THE_LIBRARIES PROGRAM..
    local built=$1
    shift
    mkdir -p "$folder"/{man/man1,man/man3,python/hocsimbur/{sheets,portfolio,report,command}}
    install -m 644 "$built/libhocsimbur.a" "$folder/lib/"
    install -m 755 "$built/$shared" "$folder/lib/"
    install -m 644 host/hocsimbur.pc.in host/hocsimbur-static.pc.in "$folder/lib/"
    install -m 644 host/hocsimbur.3 "$folder/man/man3/"
    install -m 644 host/hocsimbur.1 "$folder/man/man1/"
    install -m 755 hocsimbur "$folder/"
    install -m 644 python/hocsimbur/*.py python/hocsimbur/py.typed "$folder/python/hocsimbur/"
    for package in sheets portfolio report command; do
        install -m 644 python/hocsimbur/$package/*.py "$folder/python/hocsimbur/$package/"
    done
    install -m 644 host/hocsimbur.in "$folder/python/"
    ln -s "../../lib/$shared" "$folder/python/hocsimbur/$soname"
    for program in "$@"; do
        install -D -m 755 "target/bin/$program" "$folder/bin/$program"
    done
    sed "/^VERSION = /s|@VERSION@|$version|" host/dist.mk >"$folder/Makefile"
}

case $platform in
linux-x86_64)
    use=linux name="Linux on x86-64"
    linux target/host "$@"
    ;;
linux-aarch64)
    use=linux name="Linux on aarch64"
    linux target/linux-aarch64
    ;;
windows-x86_64)
    use=windows name="Windows on x86-64"
    install -m 644 target/windows-x86_64/hocsimbur.{dll,lib} "$folder/lib/"
    install -m 644 "target/wheel/hocsimbur-$version-py3-none-win_amd64.whl" "$folder/"
    ;;
wasm32)
    use=wasm32 name="WebAssembly, in a page or in node"
    install -m 644 target/wasm32/hocsimbur.{wasm,mjs,d.mts} target/wasm32/package.json "$folder/"
    install -m 644 target/wasm32/libhocsimbur.a "$folder/lib/"
    ;;
*)
    echo "dist: no platform $platform" >&2
    exit 1
    ;;
esac
cat host/release/README.md "host/release/$use.md" | sed "s|@VERSION@|$version|; s|@PLATFORM@|$name|" >"$folder/README.md"
python3 host/pack.py "$folder"
