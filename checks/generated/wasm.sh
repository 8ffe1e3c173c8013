#!/bin/bash
# wasm.sh TEXT MODULE: makes MODULE, the library for C as WebAssembly, of TEXT: what the toolchain lowered
# the proved library to for aarch64 (checks/c/library.sh keeps it). `wasm.sh --program TEXT MODULE` makes
# that of a program (checks/generated/object.sh keeps its text), which asks js/src/host.js for files. The
# lines of TEXT stay but for these: the target's name and layout; what asks for probes of the stack; one
# instruction of that processor, written out; tables of differences of addresses, which become tables of
# addresses. A module in which there is anything else that only some processors know, or that asks a system
# for more than is known, is refused. Debian's `wasm-opt` makes addresses of 32 bits of those of 64, which
# all browsers and Node take. This step is tested, not proved. `wasm.sh --spoil TEXT` sees that what isn't
# known is refused.
set -euo pipefail
export LC_ALL=C

top=$(cd "$(dirname "$0")/../.." && pwd)
tools=$(dirname "$(rt doc)")/toolchain/bin
scratch=$(mktemp -d)
trap 'rm -rf "$scratch"' EXIT

# What is asked of a system: memory, and of programs besides what js/src/host.js has.
memory=(rattle_alloc rattle_realloc rattle_dealloc)
asked=()
stack=1048576
if [ "${1-}" = --program ]; then
    shift
    mapfile -t asked < <(sed -n '/^  return {$/,/^  };$/s/^    \([a-z_]*[a-z0-9_]*\)[:(].*/\1/p' "$top/js/src/host.js")
    stack=8388608
fi

wrong() {
    echo "wasm: $1" >&2
    exit 1
}

# The text for WebAssembly, in the scratch folder.
retarget() {
    local unknown
    unknown=$(grep -o '@llvm\.[a-z0-9.]*' "$1" | sort -u | grep -vxE '@llvm\.(aarch64\.neon\.(addp|tbl1)\.v16i8|arithmetic\.fence\.f64|experimental\.cttz\.elts\.i64\.v[0-9]*i1|(abs|bswap|cttz|ctlz|ctpop|fshl|fshr|smax|smin|umax|umin)\.(v[0-9]*)?i[0-9]*|lifetime\.(start|end)\.p0|load\.relative\.i64|mem(cpy|move)\.p0\.p0\.i64|memset\.p0\.i64|trap|assume|(uadd|usub|sadd|ssub)\.sat\.(v[0-9]*)?i[0-9]*|(umul|uadd|usub|smul|sadd|ssub)\.with\.overflow\.i[0-9]*|vector\.reduce\.(or|and|add)\.v[0-9]*i[0-9]*|)' || true)
    [ -z "$unknown" ] || wrong "not known: $(tr '\n' ' ' <<< "$unknown")"
    # (Assembly without an instruction keeps the order of what is written, or hides a number.)
    ! grep -E ' asm [a-z"]|^module asm' "$1" | grep -qvE 'call (void|i[0-9]+) asm (sideeffect )?"", "(~\{memory\}|=r,0)"\(' ||
        wrong 'inline assembly is not known'
    unknown=$(sed -n 's/^declare .*@\([A-Za-z_][A-Za-z0-9_.]*\)(.*/\1/p' "$1" | grep -v '^llvm\.' |
        grep -vxF -f <(printf '%s\n' "${memory[@]}" "${asked[@]}") || true)
    [ -z "$unknown" ] || wrong "asked of a system: $(tr '\n' ' ' <<< "$unknown")"
    sed -E 's/^target datalayout = .*/target datalayout = "e-m:e-p:64:64-p10:8:8-p20:8:8-i64:64-i128:128-n32:64-S128-ni:1:10:20"/
        s/^target triple = .*/target triple = "wasm64-unknown-unknown"/
        s/ "(probe-stack|stack-probe-size)"="[^"]*"//g
        /^declare .*@llvm\.(aarch64\.neon\.(addp|tbl1)\.v16i8|load\.relative\.i64)\(/d
        /^uselistorder/d
        /^@"?switch\.table\.[^ ]*\.rel"? = /{
            s/\[([0-9]*) x i32\]/[\1 x ptr]/
            s/i32 trunc \(i64 sub \(i64 ptrtoint \(ptr (getelementptr [^()]*\([^()]*\)|@("[^"]*"|[^ ]*)) to i64\), i64 ptrtoint \(ptr @("[^"]*"|[^ ]*) to i64\)\) to i32\)/ptr \1/g
            s/align 4$/align 8/
        }
        s/^( *%)([^ ]*) = call ptr @llvm\.load\.relative\.i64\(ptr (@("[^"]*"|[^ ,]*)), i64 (%[^ )]*)\).*/\1\2.at = shl i64 \5, 1\n\1\2.place = getelementptr i8, ptr \3, i64 %\2.at\n\1\2 = load ptr, ptr %\2.place, align 8/
        s/@llvm\.aarch64\.neon\.addp\.v16i8/@add_pairs/g
        s/@llvm\.aarch64\.neon\.tbl1\.v16i8/@look_up/g' "$1" > "$scratch/module.ll"
    ! grep -qE 'load\.relative|ptrtoint \(.*i64 sub|i64 sub \(' "$scratch/module.ll" ||
        wrong 'a table of differences is not known'
    cat >> "$scratch/module.ll" << END_OF_PAIRS

define internal <16 x i8> @add_pairs(<16 x i8> %left, <16 x i8> %right) {
  %even = shufflevector <16 x i8> %left, <16 x i8> %right, <16 x i32> <$(places 0)>
  %odd = shufflevector <16 x i8> %left, <16 x i8> %right, <16 x i32> <$(places 1)>
  %sum = add <16 x i8> %even, %odd
  ret <16 x i8> %sum
}
END_OF_PAIRS
    ! grep -q '@look_up' "$scratch/module.ll" || look_up >> "$scratch/module.ll"
}

# A byte of a table for each of sixteen places, 0 for one past its end.
look_up() {
    local lane row=zeroinitializer
    echo 'define internal <16 x i8> @look_up(<16 x i8> %table, <16 x i8> %places) {'
    for lane in {0..15}; do
        cat << END_OF_LANE
  %place.$lane = extractelement <16 x i8> %places, i32 $lane
  %within.$lane = icmp ult i8 %place.$lane, 16
  %safe.$lane = and i8 %place.$lane, 15
  %found.$lane = extractelement <16 x i8> %table, i8 %safe.$lane
  %byte.$lane = select i1 %within.$lane, i8 %found.$lane, i8 0
  %row.$lane = insertelement <16 x i8> $row, i8 %byte.$lane, i32 $lane
END_OF_LANE
        row=%row.$lane
    done
    printf '  ret <16 x i8> %s\n}\n' "$row"
}

# Every other place of 32, from this one on.
places() {
    seq -f 'i32 %.0f' -s ', ' "$1" 2 31
}

compile() {
    "$tools/clang" --target=wasm64-unknown-unknown --no-default-config -mbulk-memory -O2 "$@"
}

link() {
    local exported=(--export=main)
    if [ ${#asked[@]} -eq 0 ]; then
        mapfile -t exported < <(sed -n 's/^[a-z].*[ *]\(hidreport_[a-z_]*\)(.*/--export=\1/p' \
            "$top/include/hidreport.h" "$top/generated/wasm.c" | sort -u)
        exported+=(--export=rattle_alloc --export=rattle_dealloc)
    fi
    printf '%s\n' "${asked[@]}" > "$scratch/asked"
    ln -s "$tools/ld.lld" "$scratch/wasm-ld"
    "$scratch/wasm-ld" -mwasm64 --no-entry --gc-sections --strip-all -z stack-size="$stack" "${exported[@]}" \
        --allow-undefined-file="$scratch/asked" -o "$scratch/wide.wasm" "$scratch/module.o" "$scratch/wasm.o"
    wasm-opt --enable-memory64 --enable-bulk-memory --enable-sign-ext --enable-mutable-globals \
        --memory64-lowering -o "$1" "$scratch/wide.wasm"
}

if [ "$1" = --spoil ]; then
    refused=0
    retarget "$2"
    for line in 'declare i64 @llvm.aarch64.crc32x(i64)' 'declare i32 @getpid()' 'module asm "nop"' \
        '  call void asm sideeffect "nop", ""()'; do
        { cat "$2" && echo "$line"; } > "$scratch/spoilt.ll"
        ! (retarget "$scratch/spoilt.ll") 2> /dev/null || wrong "not refused: $line"
        refused=$((refused + 1))
    done
    echo "wasm: $refused modules with something that isn't known are refused"
    exit 0
fi
command -v wasm-opt > /dev/null || wrong 'no `wasm-opt` on the path (package binaryen)'
retarget "$1"
compile -x ir -c "$scratch/module.ll" -o "$scratch/module.o"
compile -ffreestanding -nostdlib -Wall -Wextra -Werror -c "$top/generated/wasm.c" -o "$scratch/wasm.o"
link "$2"
