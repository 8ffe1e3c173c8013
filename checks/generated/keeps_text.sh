# keeps_text.sh: to be read by `.`, not run. `keeps_text KIT FOLDER TEXT [assembly]` fills FOLDER with links
# to the toolchain of KIT, whose compiler, which is called by its path and gets no variable, keeps what it
# compiles: as LLVM's own text in TEXT.ll, and with `assembly` besides as assembly in TEXT, which gas and
# clang read, by the same options.
keeps_text() {
    local kit=$1 folder=$2 text=$3
    mkdir -p "$folder/bin"
    ln -s "$kit"/toolchain/* "$folder/" 2> /dev/null || true
    ln -s "$kit"/toolchain/bin/* "$folder/bin/"
    rm "$folder/bin/clang"
    printf '#!/bin/sh\nclang=%q\ntext=%q\nassembly=%q\n' "$kit/toolchain/bin/clang" "$text" "${4-}" \
        > "$folder/bin/clang"
    cat >> "$folder/bin/clang" << 'END_OF_CLANG'
case " $* " in
    *' -c '*)
        "$clang" "$@" || exit
        previous=
        for word; do
            [ "$previous" != ir ] || cp "$word" "$text.ll"
            previous=$word
        done
        [ -n "$assembly" ] || exit 0
        left=$#
        while [ "$left" -gt 0 ]; do
            word=$1
            shift
            left=$((left - 1))
            case $word in
                -c) set -- "$@" -S -fno-addrsig ;;
                -o) shift && left=$((left - 1)) ;;
                *) set -- "$@" "$word" ;;
            esac
        done
        set -- "$@" -o "$text"
        ;;
esac
exec "$clang" "$@"
END_OF_CLANG
    chmod +x "$folder/bin/clang"
}
