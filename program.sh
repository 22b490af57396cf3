# What the commands ./listing and ./workload share: the program is built where it is missing or older than a source, and run, with
# an exit status by what it says. For bash to source, with the name that the command, its program and its crate have:
#
#   . "$(dirname "${BASH_SOURCE[0]}")/program.sh" NAME || exit 2

here=$(cd "$(dirname "${BASH_SOURCE[0]}")" && pwd)
name=$1
program=$here/target/bin/$name

fail() {
    echo "$name: $*" >&2
    exit 2
}

# The command's head comment.
usage() {
    sed -n '2,/^$/s/^# \{0,1\}//p' "$0"
}

# The crates that the program is made of.
crates() {
    awk -F: -v top="$name" '
        function walk(name, list, n, i) {
            if (name in seen || !(name in below)) return
            seen[name]
            print name
            n = split(below[name], list, " ")
            for (i = 1; i <= n; i++) walk(list[i])
        }
        !/^#/ { split($1, words, " "); below[words[1]] = $2 }
        END { walk(top) }' "$here/crates.txt"
}

is_built() {
    [ -x "$program" ] || return
    local sources=("$here/crates.txt") crate
    for crate in $(crates); do sources+=("$here/crates/$crate/src"); done
    [ -z "$(find "${sources[@]}" -type f -newer "$program" -print -quit)" ]
}

# Has rt prove and build the program, which it then runs once, on the input that stands beside its sources: rt has no command that
# builds a program alone. Passes on what rt says of each crate and function, with the crates that are left; where it fails, all that it
# says. A crate that stands proved is not told.
build() {
    command -v rt > /dev/null || fail "the program is not built yet, and rt, which builds it, is not found"
    local report left status line
    report=$(mktemp) || fail "no temporary file"
    left=$(crates | wc -l)
    echo "$name: builds the program first; crates to prove: up to $left" >&2
    (cd "$here/crates/$name" && rt run 2>&1 > /dev/null < stdin) | tee "$report" | while IFS= read -r line; do
        case $line in
            "crate "*": modules loaded="*) left=$((left - 1)) && echo "$line  [up to $left left]" ;;
            "rt: running "*) ;;
            "rt: "* | "fn "* | "struct "* | "enum "*) echo "$line" ;;
        esac
    done >&2
    status=${PIPESTATUS[0]}
    [ "$status" -eq 0 ] || cat "$report" >&2
    rm -f "$report"
    [ "$status" -eq 0 ] || fail "the program could not be built"
    { mkdir -p "${program%/*}" && cp "$here/crates/$name/out/$name" "$program.new" && mv -f "$program.new" "$program"; } || fail "the program could not be put into target/bin/"
}

# Of several commands that find a program missing, one builds at a time, and the others wait.
build_once() {
    { mkdir -p "$here/target" && exec 9> "$here/target/build.lock"; } 2> /dev/null || fail "target/ cannot be written, and the program is not built yet"
    ! command -v flock > /dev/null || flock 9
    is_built || build
    exec 9>&-
}

# Runs the program, built first where it must be, and ends with its status. That of these programs is 0 where output was lost too: they
# say on standard error what was lost, and that decides.
run() {
    local said status
    is_built || build_once
    { exec 3>&1; } 2> /dev/null || fail "standard output is closed"
    said=$("$program" 2>&1 >&3 3>&-)
    status=$?
    [ -z "$said" ] || sed "s/^\(lost: \)\{0,1\}/$name: /" <<< "$said" >&2
    case $said in
        lost:* | *$'\n'lost:*) exit 1 ;;
    esac
    exit "$status"
}
