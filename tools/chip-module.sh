#!/usr/bin/env bash
# chip-module.sh: writes target/module/rikkovan.ll, the module that librikkovan.a is compiled from, as text. rattle gives it
# to its compiler and keeps it nowhere; so the library is built a second time, beside the first, with a compiler that keeps it.
# That archive must be the first one byte for byte: the module is then the one that is proved. Two of its forms mean another thing with
# pointers of 32 bits; chip-pairs.py replaces them, and for x86-64 that must change no byte. Needs a built library.
set -euo pipefail
cd "$(dirname "$0")/.."

out=$PWD/target/module
# Not below the repository, in which rt ci refuses links.
copying=$(mktemp -d)
trap 'rm -rf "$copying"' EXIT
library=target/staticlib/librikkovan.a
toolchain=$(dirname "$(rt doc)")/toolchain

fail() {
    echo "module: FAILED: $*"
    exit 1
}

# The kit's toolchain as links, but for a compiler that copies the module before it runs the kit's.
toolchain_that_keeps_the_module() {
    local file
    mkdir -p "$copying/bin"
    ln -s "$toolchain/lib" "$copying/lib"
    for file in "$toolchain"/bin/*; do
        [ "${file##*/}" = clang ] || ln -s "$(readlink -f "$file")" "$copying/bin/${file##*/}"
    done
    cat >"$copying/bin/clang" <<END
#!/bin/sh
for word; do case \$word in *.bc) cp "\$word" '$out/module.bc' ;; esac; done
exec '$toolchain/bin/clang' "\$@"
END
    chmod +x "$copying/bin/clang"
}

# Over the libraries that the first one was built over.
second_library() {
    tools/rattle.py build rikkovan --cpu x86-64 --backend llvm --toolchain "$copying" -o "$out/librikkovan.a" >"$out/log" 2>&1 ||
        { tail "$out/log" && fail 'the library is not proved over the libraries in crates/*/out; make lib builds both anew'; }
    grep -q '^logic=proved ' "$out/log" || fail 'rattle does not say that the library is proved'
    cmp "$library" "$out/librikkovan.a" || fail 'the second library differs from the first'
    [ -f "$out/module.bc" ] || fail 'the compiler was given no module'
}

# What chip-pairs.py replaces means the same with pointers of 64 bits: compiled for them, both modules are the same bytes.
same_for_64_bits() {
    local name
    for name in unpaired unchecked; do
        "$toolchain/bin/clang" --target=x86_64-unknown-linux-gnu -O2 --no-default-config -Werror -c -x ir "$out/$name.ll" -o "$out/$name.o"
    done
    cmp "$out/unpaired.o" "$out/unchecked.o" || fail 'chip-pairs.py changes what the module means'
    rm "$out/unpaired.o" "$out/unchecked.o"
}

[ -f "$library" ] || fail "$library is missing"
rm -rf "$out"
mkdir -p "$out"
toolchain_that_keeps_the_module
second_library
"$toolchain/bin/clang" --target=x86_64-unknown-linux-gnu -S -emit-llvm -Xclang -disable-llvm-passes -x ir "$out/module.bc" -o "$out/unpaired.ll"
tools/chip-pairs.py "$out/unpaired.ll" >"$out/unchecked.ll"
same_for_64_bits
tools/chip-layout.py "$out/unchecked.ll" || fail 'the module may depend on the size of a pointer'
rm "$out/librikkovan.a" "$out/unpaired.ll"
mv "$out/unchecked.ll" "$out/rikkovan.ll"
