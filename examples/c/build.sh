# For sourcing by the launchers here, with `here` set: `build_example NAME` builds the program NAME.c, and the library, where they are missing or
# older than a source, and sets `program`. A C compiler for x86-64 is needed: cc, or what CC names.
top=$(cd "$here/../.." && pwd -P)
. "$top/tools/build.sh"

build_example() {
    library=$top/target/staticlib/libdesktop.a
    program=$top/target/c/$1
    build_library desktop
    compiler=${CC:-cc}
    # under an emulator there is no other machine's C library to load
    static=${emulator:+-static}
    if [ ! -x "$program" ] || [ -n "$(find "$library" "$here/$1.c" "$here/board.c" "$here/board.h" "$top/include/crowmitten.h" -newer "$program")" ]; then
        mkdir -p "$top/target/c"
        "$compiler" -std=c99 -Wall -Wextra -O2 $static -I"$top/include" -o "$program" "$here/$1.c" "$here/board.c" "$library"
    fi
}
