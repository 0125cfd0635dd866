# shellcheck shell=sh disable=SC2154
# Read by replay, examples/c/build.sh and compare/build.sh with `top` set to the repository's folder: build_program and build_library prove and build what
# is missing or older than a source, and run_program runs a program. `emulator` is what EMULATOR names, an emulator of x86-64 that the programs in C are to
# run under, as QEMU's; none is needed.

command -v rt >/dev/null || { echo "rt, the Rattle toolchain, is not on the path" >&2; exit 1; }
# shellcheck disable=SC2034
emulator=${EMULATOR:-}

# Runs a program that is built.
run_program() { "$top/crates/$1/out/$1"; }

build_program() { build "$1" "crates/$1/out/$1" make_program; }

# The library NAME for C is built from the crate NAME_c, which has its exports.
build_library() { build "$1_c" "target/staticlib/lib$1.a" make_library; }

# `rt run` builds a program and then runs it once, here on no input.
make_program() { # NAME FILE
    (cd "crates/$1" && rt run)
}

make_library() { # NAME FILE
    (cd "crates/$1" && rt lib) && mkdir -p "${2%/*}" && cp "crates/$1/out/lib$1.a" "$2"
}

# Runs MAKE for FILE unless that was done after the last change of a source. rt compares contents and can find a newer source unchanged: the mark is set
# then too, so that it is not asked again.
build() ( # NAME FILE MAKE
    cd "$top" || exit
    mark=target/built/$1
    if [ -e "$2" ] && [ -e "$mark" ] && [ -z "$(newer_sources "$1" "$mark")" ]; then exit; fi
    mkdir -p target/built
    [ -e "$2" ] || echo "$1 is proved and built first, which takes some minutes" >&2
    rm -f "$mark.made"
    # from before rt reads anything, so that a source that is changed meanwhile is newer
    : >"$mark.begun"
    { "$3" "$1" "$2" </dev/null 2>&1 && : >"$mark.made"; } | show_progress "$(needed "$1" | wc -l)" "$mark.log"
    if [ ! -e "$mark.made" ]; then
        cat "$mark.log" >&2
        exit 1
    fi
    mv "$mark.begun" "$mark"
)

# A crate, and by crates.txt all that it stands on.
needed() { # NAME
    awk -v name="$1" '
        function visit(crate, parts, n, i) {
            if (!(crate in below) || seen[crate]++) return
            print crate
            n = split(below[crate], parts, " ")
            for (i = 1; i <= n; i++) visit(parts[i])
        }
        { sub(/#.*/, "") }
        /:/ { split($0, part, ":"); split(part[1], word, " "); below[word[1]] = part[2] }
        END { visit(name) }' crates.txt
}

# The first file or folder of those crates' sources that is newer than the mark, if any. Not every crate has each of the three folders.
newer_sources() { # NAME MARK
    # shellcheck disable=SC2046
    find crates.txt $(needed "$1" | sed 's,.*,crates/&/src crates/&/specs crates/&/proofs,') -newer "$2" -print 2>/dev/null | head -n 1
}

# Keeps what rt prints in a file, and tells how many crates are proved: on a terminal in one line that is written over, otherwise at each quarter.
show_progress() { # CRATES LOG
    count=0 quarter=0 end=
    while IFS= read -r line; do
        printf '%s\n' "$line" >&3
        case $line in 'logic=proved '*) ;; *) continue ;; esac
        count=$((count + 1))
        if [ -t 2 ]; then
            printf '\rproved: %d of %d crates' "$count" "$1" >&2
            end='\n'
        elif [ "$((4 * count / $1))" -gt "$quarter" ]; then
            echo "proved: $count of $1 crates" >&2
            quarter=$((4 * count / $1))
        fi
    done 3>"$2"
    printf %b "$end" >&2
}
