# shellcheck shell=sh disable=SC2154,SC2034
# Read by run and bench with `top` set to the repository's folder: makes the
# comparing program and sets `program`, and `emulator` where EMULATOR names one.
# The library is made where it is missing or older than a source.
library=$top/target/staticlib/libdesktop.a
program=$top/target/compare
. "$top/tools/build.sh"
build_library desktop
# An emulator is slow where a loop lies across two pages: aligned, the plain side
# is at its best.
compiler=${CC:-cc}
more=
[ -z "$emulator" ] || more='-static -falign-functions=4096'
cd "$top/compare"
# shellcheck disable=SC2086
"$compiler" -std=c11 -O3 -Wall -Wextra -Wconversion -Wpedantic -Werror $more \
    -I "$top/include" main.c draw.c words.c world.c report.c results.c steps.c \
    runs.c files.c views.c empty.c speed.c plain.c "$library" -o "$program"
