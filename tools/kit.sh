# What every script here needs of the machine: the kit, packages, a folder that does not stay, and the way to prove and run
# a program. A script without the kit, or without that folder, ends with status 1, or with what it has set `failure` to.

say() { printf '%s\n' "$*" >&2; }

# The kit is not a package: it has to be there.
has_kit() { command -v rt >/dev/null 2>&1; }
need_kit() {
    has_kit && return 0
    say "mirto: the Rattle kit is not on this machine: there is no command 'rt' on PATH"
    exit "${failure:-1}"
}

# need COMMAND PACKAGE: installs the package by its name where the command is missing; shows what was printed if it fails.
need() {
    command -v "$1" >/dev/null 2>&1 && return 0
    say "mirto: '$1' is missing; installing the package '$2'"
    printed=$({ apt-get update && apt-get install -y "$2"; } 2>&1)
    command -v "$1" >/dev/null 2>&1 && return 0
    say "$printed"
    say "mirto: '$1' is missing, and the package '$2' could not be installed"
    return 1
}

# make_room: a temporary folder, its name in `room`. It goes when the script ends, by HUP, INT or TERM too, and what the
# script has started ends with it.
make_room() {
    room=''
    trap 'rm -rf "$room"' EXIT
    trap 'end_below; exit 129' HUP
    trap 'end_below; exit 130' INT
    trap 'end_below; exit 143' TERM
    room=$(mktemp -d) || exit "${failure:-1}"
}

# below: every process below this script, one to a line, but for those of this function itself.
below() {
    cat /proc/[0-9]*/status 2>/dev/null | awk -v top=$$ '
        $1 == "Pid:" { pid = $2 }
        $1 == "PPid:" { parent[pid] = $2 }
        END {
            while ((getline line < "/proc/self/status") > 0) if (split(line, own) && own[1] == "PPid:") here = own[2]
            for (pid in parent) {
                for (p = pid; p != top && p != here && p in parent; p = parent[p]) continue
                if (p == top && pid != top) print pid
            }
        }' | sort
}

# end_below: ends every process below this one, each by its number, and waits until they have ended. They are stopped
# first: one that runs could start another in the meantime.
end_below() {
    trap '' HUP INT TERM
    stopped='' found=$(below)
    while [ "$found" != "$stopped" ]; do
        stopped=$found
        kill -s STOP $stopped 2>/dev/null
        found=$(below)
    done
    kill -s TERM $stopped 2>/dev/null
    kill -s CONT $stopped 2>/dev/null
    wait
    tries=100
    while [ "$tries" -gt 0 ] && living $stopped; do sleep 0.1 && tries=$((tries - 1)); done
}

# living PID..: one of these processes has not ended
living() { grep -qs '^State:[[:space:]]*[^ZX[:space:]]' /dev/null $(printf '/proc/%s/status ' "$@"); }

# attended COMMAND..: runs it with this standard input, and waits so that an interrupt is heard at once, and not only when
# the command has ended. It takes descriptor 9, so that the command still has those below, which an operand may name.
attended() {
    { true 9<&0; } 2>/dev/null || exec </dev/null
    exec 9<&0
    "$@" <&9 9<&- &
    exec 9<&-
    wait $!
}

# crates_for NAME..: these crates and all that they need of crates.txt, one to a line.
crates_for() {
    awk -v names="$*" '
        function visit(name,    i, n, below) {
            if (seen[name] || !(name in needs)) return
            seen[name] = 1
            print name
            n = split(needs[name], below, " ")
            for (i = 1; i <= n; i++) visit(below[i])
        }
        { sub(/#.*/, ""); at = index($0, ":") }
        at { split(substr($0, 1, at - 1), head, " "); needs[head[1]] = substr($0, at + 1) }
        END { n = split(names, wanted, " "); for (i = 1; i <= n; i++) visit(wanted[i]) }' crates.txt
}

# built NAME: the file that is made of this crate: a program, or else an archive
built() { if [ -f "crates/$1/src/lib.rt" ]; then echo "crates/$1/out/lib$1.a"; else echo "crates/$1/out/$1"; fi; }

# text_of NAME: a sum over all that it is proved and built from: the kit, and the text of the crate and of all that it needs
text_of() {
    kit=$(dirname "$(dirname "$(readlink -f "$(command -v rt)")")")
    {
        cat "$kit/KIT-ID" crates.txt
        find $(crates_for "$1" | sed 's|.*|crates/&/src crates/&/specs crates/&/proofs|') -type f -exec cksum {} + | sort
    } 2>/dev/null | cksum
}

# stands CRATE: something was made of it, perhaps of an older text
stands() { [ -f "crates/$1/out/rlib/stamp" ] || [ -f "$(built "$1")" ]; }

# is_fresh NAME: what stands there was built of this text once it was proved; note NAME TEXT: so it is
is_fresh() { [ -f "$(built "$1")" ] && [ "$(cat "target/proved/$1" 2>/dev/null)" = "$(note_of "$1" "$(text_of "$1")")" ]; }
note_of() { printf '%s\n%s\n' "$2" "$(cksum <"$(built "$1")")"; }
note() { mkdir -p target/proved && note_of "$1" "$2" >"target/proved/$1"; }

# prove NAME..: these programs, or archives, are proved with what they need, and built. It says on standard error how far it is, a
# line a crate; nothing where nothing is to be proved. What `rt` printed is shown where it fails. Two at a time, as in a pipe from
# one ./mirto to another, take turns: the second then finds what the first has built.
prove() {
    need_kit
    stale=''
    for name; do is_fresh "$name" || stale="$stale $name"; done
    [ -n "$stale" ] || return 0
    all=0 missing=0 crates=$(crates_for $stale)
    for crate in $crates; do
        all=$((all + 1))
        stands "$crate" || missing=$((missing + 1))
    done
    [ "$missing" -eq 0 ] || say "proving what this needs: $missing of $all crates, which can take minutes"
    { in_turn && build_each $stale 2>&1 9<&- && echo 'all is proved'; } 9<crates.txt | say_progress
}

build_each() { for name; do is_fresh "$name" || build "$name" || return; done; }

# build NAME: proves and builds it. `rt run` also runs the program, on the input that its crate has; what comes of that is not
# asked here, so that only a program that was not built counts as a failure.
build() {
    text=$(text_of "$1") file=$(built "$1") status=0
    rm -f "$file"
    case $file in
        *.a) (cd "crates/$1" && exec rt lib </dev/null) || return ;;
        *) (cd "crates/$1" && [ -f stdin ] && exec <stdin || exec </dev/null && exec rt run 2>&1 >/dev/null) || status=$? ;;
    esac
    [ -f "$file" ] || return "$status"
    [ "$(text_of "$1")" != "$text" ] || note "$1" "$text"
}

# in_turn: locks the file of descriptor 9, once no other has it locked
in_turn() {
    need flock util-linux || return
    flock -w 5 9 && return
    say 'another ./mirto is proving: waiting for it'
    flock 9
}

# say_progress: of what `rt` prints. It is silent about a library that another copy of the repository had proved: those that stand
# now are counted too.
say_progress() {
    at=$((all - missing)) seen=' ' name='' printed='' began=$(date +%s)
    while IFS= read -r line; do
        printed="$printed$line
"
        case $line in
            'all is proved') return 0 ;;
            'crate '*': modules loaded='*) name=${line#crate } && name=${name%%:*} && continue ;;
            'logic=proved'*) ;;
            *) continue ;;
        esac
        case $seen in *" $name "*) continue ;; esac
        now=$(date +%s) seen="$seen$name " others=0
        for crate in $crates; do [ "$crate" = "$name" ] || ! stands "$crate" || others=$((others + 1)); done
        at=$((others > at ? others + 1 : at < all ? at + 1 : all))
        say "proving $at of $all: $name, $((now - began)) s"
        began=$now
    done
    printf %s "$printed" >&2
    return 1
}

# under COMMAND..: how the two below run a program. A script may say it anew, with a limit or a clock.
under() { "$@"; }

# run_x86 PROGRAM..: runs a program for x86-64; elsewhere an emulator does.
run_x86() {
    if [ "$(uname -m)" != x86_64 ]; then
        need qemu-x86_64 qemu-user || return
        set -- qemu-x86_64 -L /usr/x86_64-linux-gnu "$@"
    fi
    under "$@"
}

# run_program NAME [ROOT [ARG..]]: runs the program of that crate, of the repository there (this one where none is named), in this
# folder, and hands it the arguments.
run_program() {
    program=${2:-$(pwd)}/crates/$1/out/$1
    [ -f "$program" ] || { say "mirto: crates/$1/out/$1 is not built"; return 1; }
    shift $(($# > 1 ? 2 : 1))
    run_x86 "$program" "$@"
}

# c_compiler: the compiler whose programs link our archive, which is for x86-64.
c_compiler() {
    if [ "$(uname -m)" = x86_64 ]; then echo gcc; else echo x86_64-linux-gnu-gcc; fi
}
