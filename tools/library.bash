# Sourced at the repository's top by all that links the library: it is built here and nowhere else.
set -o pipefail

# need TOOL ..: ends with what is missing, and where it comes from.
need() {
    local tool missing=0
    for tool; do
        if command -v "$tool" >/dev/null; then continue; fi
        missing=1
        case $tool in
        rt) echo "missing: rt, the command of the Rattle toolchain; the toolchain's bin folder has to be in PATH" ;;
        cargo) echo "missing: cargo, which comes with Rust (Debian's package cargo)" ;;
        *) echo "missing: $tool (Debian's package $tool)" ;;
        esac >&2
    done
    [ "$missing" = 0 ] || exit 1
}

# The crates that the named ones rest on, by crates.txt, and they themselves.
crates_of() {
    awk -F: -v names="$*" '
        function visit(name, of, i, n) {
            if (!(name in deps) || name in seen) return
            seen[name]
            n = split(deps[name], of, " ")
            for (i = 1; i <= n; i++) visit(of[i])
            print name
        }
        { sub(/#.*/, "") }
        NF { split($1, word, " "); deps[word[1]] = $2 }
        END { n = split(names, of, " "); for (i = 1; i <= n; i++) visit(of[i]) }' crates.txt
}

# What a command that failed wrote last.
tell_failure() { # LOG
    tail -n 20 "$1" >&2
    echo "failed; all of it is in $1" >&2
    exit 1
}

# Whether the crate has been proved by this toolchain since its files, crates.txt or a crate below it changed. A stamp has the time at which the
# proof began, and the toolchain's name.
is_proved() { # CRATE
    local stamp=target/stamp/$1 below
    [ -e "$stamp" ] && [ ! crates.txt -nt "$stamp" ] && [ "$(<"$stamp")" = "$toolchain" ] || return 1
    [ -z "$(find "crates/$1"/{src,specs,proofs} -newer "$stamp" -print -quit 2>/dev/null)" ] || return 1
    for below in $(crates_of "$1"); do
        if [ "target/stamp/$below" -nt "$stamp" ]; then return 1; fi
    done
}

# prove NAME ..: rt check of the named crates and those below them, lowest first, with a line for each that is not proved yet.
prove() {
    local log=target/library/check.log begun=target/library/begun crates crate n=0 toolchain
    need rt
    toolchain=$(rt version)
    mkdir -p target/library target/stamp
    mapfile -t crates < <(crates_of "$@")
    for crate in "${crates[@]}"; do
        n=$((n + 1))
        if is_proved "$crate"; then continue; fi
        echo "proving $crate ($n of ${#crates[@]}) .." >&2
        echo "$toolchain" >"$begun"
        (cd "crates/$crate" && rt check) >"$log" 2>&1 || tell_failure "$log"
        mv "$begun" "target/stamp/$crate"
    done
}

# build_archives NAME ..: target/staticlib/libNAME.a of each crate, where it is older than the proof. The archive of a crate NAME_c has NAME's name.
build_archives() {
    local crate name log=target/library/staticlib.log
    mkdir -p target/staticlib
    for crate; do
        name=${crate%_c}
        if [ "target/staticlib/lib$name.a" -nt "target/stamp/$crate" ]; then continue; fi
        echo "building lib$name.a .." >&2
        (cd "crates/$crate" && rt lib) >"$log" 2>&1 || tell_failure "$log"
        cp "crates/$crate/out/lib$crate.a" "target/staticlib/lib$name.a"
    done
}

# build_programs NAME ..: target/bin/NAME of each program, where it is older than the proof. rt runs it, too, on its own input.
build_programs() {
    local program log=target/library/program.log
    mkdir -p target/bin
    for program; do
        if [ "target/bin/$program" -nt "target/stamp/$program" ]; then continue; fi
        echo "building $program .." >&2
        (cd "crates/$program" && { [ ! -e stdin ] || exec <stdin; } && rt run) >"$log" 2>&1 || tell_failure "$log"
        cp "crates/$program/out/$program" "target/bin/$program"
    done
}

# need_library [PROGRAM ..]: the folder in T1MMU_LIB has the library's two archives; where it is not set, they are proved and built.
# Leaves T1MMU_LIB set, for cargo's build scripts too, and the archives in `library`. The programs are proved and built as well.
need_library() {
    local crate archives=(t1mmu t1mmu_miss)
    if [ -n "${T1MMU_LIB:-}" ]; then
        for crate in "${archives[@]}"; do
            [ -f "$T1MMU_LIB/lib$crate.a" ] || { echo "missing: lib$crate.a in $T1MMU_LIB, which T1MMU_LIB names" >&2; exit 1; }
        done
        T1MMU_LIB=$(realpath "$T1MMU_LIB")
        [ $# = 0 ] || prove "$@"
    else
        T1MMU_LIB=$PWD/target/staticlib
        prove "${archives[@]}" "$@"
        build_archives "${archives[@]}"
    fi
    build_programs "$@"
    library=("${archives[@]/#/$T1MMU_LIB/lib}")
    library=("${library[@]/%/.a}")
    export T1MMU_LIB
}
