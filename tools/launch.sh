# Runs the program of this name, which it proves and builds where it is not built: launch PROGRAM WORDS. It is read by the two programs'
# scripts at the top, and speaks on standard error alone.
launch() {
    local name=$1
    shift
    local here crates jobs log program
    here=$(cd "$(dirname "${BASH_SOURCE[0]}")/.." && pwd)
    program=$here/crates/$name/out/$name
    if [ ! -x "$program" ]; then
        if ! command -v rt >/dev/null; then
            echo "$name: it is not built yet, and the command rt of the Rattle kit is not on the path" >&2
            exit 70
        fi
        crates=$(grep -c '^[a-z]' "$here/crates.txt")
        # crates that do not wait for each other are proved side by side; each takes 1 to 2 GB
        jobs=$(nproc)
        [ "$jobs" -le 8 ] || jobs=8
        log=$here/crates/$name/build.log
        echo "$name: proving and building $crates crates, $jobs at a time (once for both programs; about two hours of processor time)" >&2
        (cd "$here" && rt all check --jobs "$jobs") 2>&1 | tee "$log" | told_crates "$name" "$crates"
        # without words a program prints its usage line and ends with status 2
        (cd "$here/crates/$name" && rt run) >>"$log" 2>&1
        if [ ! -x "$program" ]; then
            echo "$name: it was not built; see $log" >&2
            exit 70
        fi
    fi
    if [ -n "$(find "$here"/crates/*/src "$here/crates.txt" -newer "$program" -print -quit)" ]; then
        echo "$name: a source is newer than the program; to build it again, take $program away" >&2
    fi
    exec "$program" "$@"
}

# Says which crate of how many has ended, from what a check of all of them prints.
told_crates() {
    local ended=0 line
    while IFS= read -r line; do
        case $line in
        "== summary") break ;;
        "== "*)
            ended=$((ended + 1))
            echo "$1: $ended of $2 crates: ${line#== }" >&2
            ;;
        esac
    done
    cat >/dev/null
}
