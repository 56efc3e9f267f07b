# For our own tests: `expect NAME COMMAND..` passes where the command does, `done_testing` closes; what several of them build.

passed=0 failed=0

expect() {
    what=$1
    shift
    if "$@"; then
        passed=$((passed + 1))
    else
        failed=$((failed + 1))
        printf 'failed: %s\n' "$what"
    fi
}

done_testing() {
    printf '%s passed, %s failed\n' "$passed" "$failed"
    [ "$failed" -eq 0 ]
    exit
}

# programs NAME..: these are proved and linked; what the prover says is shown where it fails
programs() { prove "$@"; }

# second_program: both builds of the second program stand in target/second and target/second-sanitized
second_program() {
    need gcc gcc && need make make \
        && make -j 4 -s -C second all OUT="$(pwd)/target/second" \
        && make -j 4 -s -C second sanitize OUT="$(pwd)/target/second-sanitized"
}

# c_tools: the compiler whose programs link our archive
c_tools() { if [ "$(uname -m)" = x86_64 ]; then need gcc gcc; else need x86_64-linux-gnu-gcc gcc-x86-64-linux-gnu; fi; }

# libraries NAME: what this crate needs is proved and kept, so that a copy of the repository proves only what differs
libraries() {
    said=$(cd "crates/$1" && rt check 2>&1) && return 0
    printf '%s\n' "$said"
    return 1
}

# crates_to FOLDER: the text of all crates, copied there, without what `rt` made of it
crates_to() {
    for text in crates/*/src crates/*/specs crates/*/proofs; do
        [ ! -d "$text" ] || { mkdir -p "$1/${text%/*}" && cp -R "$text" "$1/$text"; } || return
    done
}

# judged FOLDER: `rt check` there; once more, from nothing, where it came to no verdict, as it does where another command changed a
# library meanwhile
judged() (
    cd "$1" && rt check
    ended=$?
    [ "$ended" -ne 2 ] || { rm -rf ../*/out && rt check && ended=0 || ended=$?; }
    return "$ended"
)

# copy NAME: the crates, copied to a folder of this name in the test's room, which is then the working folder; what is proved
# already, and did not change, `rt` does not prove again there. `root` is the repository's folder
copy() { mkdir "$room/$1" && cd "$root" && cp crates.txt "$room/$1" && crates_to "$room/$1" && cd "$room/$1" || exit 1; }

# change FILE OLD NEW: the text must stand in the file, once
change() {
    OLD=$2 NEW=$3 awk '
        { text = text $0 "\n" }
        END {
            old = ENVIRON["OLD"]; at = index(text, old)
            if (!at) exit 3
            rest = substr(text, at + length(old))
            if (index(rest, old)) exit 4
            printf "%s%s%s", substr(text, 1, at - 1), ENVIRON["NEW"], rest
        }' "$1" >"$1.changed"
    case $? in
        0) mv "$1.changed" "$1" ;;
        3) printf 'not found in %s: %s\n' "$1" "$2"; return 1 ;;
        *) printf 'more than once in %s: %s\n' "$1" "$2"; return 1 ;;
    esac
}

# each_refused NAME..: each of these functions, side by side in copies of their own, sees its error refused; what it says is shown
each_refused() {
    for error; do
        ("$error" >"$room/$error.said" 2>&1 && echo refused >"$room/$error.res") &
    done
    wait
    for error; do
        expect "the error $error is refused" said "$error"
    done
}

said() { cat "$room/$1.said" && [ -f "$room/$1.res" ]; }
