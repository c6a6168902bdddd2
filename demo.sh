#!/bin/sh
# Shows apexhost at its main job: a module's table and a script of service calls go in, and one line comes out for each call.
#
#   sh demo.sh           runs a short flight without the program's proof, in about a minute
#   sh demo.sh proved    builds the proved program and runs it on all examples over real files, formats an image, and kills
#                        runs in the middle; the first build proves every crate that the program is made of, in about an hour
#
# The kit's rt must be on the PATH. The checkout stays as it was, but for the ignored folders out/ that a build makes.
set -u

top=$(cd "$(dirname "$0")" && pwd) || exit 1
crate=$top/crates/apexhost
program=$crate/out/apexhost

case ${1:-try} in
    try | proved) ;;
    *)
        echo "usage: sh demo.sh [proved]" >&2
        exit 2
        ;;
esac
if ! command -v rt >/dev/null 2>&1; then
    echo "demo: rt is not on the PATH: add the folder bin of the Rattle kit to it" >&2
    exit 1
fi

umask 077
room=${TMPDIR:-/tmp}/apexhost-demo.$$
mkdir "$room" || exit 1
trap 'rm -rf "$room"' EXIT
trap 'exit 1' HUP INT TERM

# Shows a script with the numbers of its lines. $1 the table, $2 the script
show_script() {
    echo
    echo "== the script examples/$2, over the table examples/$1, with the numbers of its lines"
    awk '{ printf "%5d  %s\n", NR, $0 }' "$top/examples/$2"
    echo
}

# Compares the lines in the file told with those in the file wanted. $1 the exit status, $2 what was run
compare() {
    if [ "$1" -ne 0 ] || ! cmp -s "$room/told" "$room/wanted"; then
        echo "demo: $2 was to tell these lines, and to end with the status 0:" >&2
        cat "$room/wanted" >&2
        exit 1
    fi
}

# Prints the lines of an example that one partition is told. $1 the example, $2 the partition
lines_of() {
    awk -v partition="$2" 'NR == FNR { if ($1 == partition) own[FNR]; next } $1 in own' \
        "$top/examples/$1.script" "$top/examples/$1.told"
}

# Adds a case to those that are run without the program's proof.
# $1 its number, $2 the file of its standard input, then the program's words
add_case() {
    cp "$2" "$room/cases/$1" || exit 1
    number=$1
    shift 2
    printf '%s\n' "$@" >"$room/cases/$number.args"
}

# Shows what a case told, and compares it with the lines in the file wanted. $1 its number, $2 the program's words
show_case() {
    awk -v number="$1" '/^== / || /^case=/ { here = $0 == "== " number; next } here' "$room/log" >"$room/told"
    echo
    echo "== told by: apexhost $2"
    cat "$room/told"
    grep -q "^case=$1 run=ended status=0 " "$room/log"
    compare $? "apexhost $2"
}

# Runs a short flight by rt try: no proof is made or read. All cases share one build, and each begins with the same
# formatted image.
try_run() {
    echo "Running apexhost without its proof, for about a minute. The command that proves it: rt ci (or sh demo.sh proved)."
    show_script small.toml short_flight.script
    flight=$top/examples/short_flight.script
    mkdir "$room/cases" || exit 1
    add_case 1 "$flight" run
    add_case 2 "$flight" only DISP
    add_case 3 /dev/null check
    add_case 4 "$flight" sweep
    (cd "$crate" && rt try --data module.toml="$top/examples/small.toml" --data disk.img=data/disk.img \
        --cases "$room/cases") >"$room/log" 2>&1 </dev/null
    if ! grep -q '^cases=' "$room/log"; then
        cat "$room/log" >&2
        echo "demo: rt try didn't run the program" >&2
        exit 1
    fi
    cp "$top/examples/short_flight.told" "$room/wanted"
    show_case 1 "run, over a formatted image"
    lines_of short_flight DISP >"$room/wanted"
    show_case 2 "only DISP, from only the lines that the display depends on"
    echo "image good trees 1 logbooks 1" >"$room/wanted"
    show_case 3 "check, over the formatted image"
    echo "sweep calls 17 images 54 mounted 54 files 46" >"$room/wanted"
    show_case 4 "sweep: the power is cut at every call of the disk, and each image that is left is good"
    echo
    echo "The replies are those of examples/short_flight.told, worked out apart from the program."
}

# Builds the proved program, with a line for each crate and the minutes so far.
# rt run builds the program and then runs it in its crate's folder. With words that are no command it only tells how it
# is used, so nothing else happens there; what it leaves is removed where it was not there before.
build() {
    echo "Building apexhost with $(rt version); the first build proves what it is built on:"
    begin=$(date +%s)
    had_disk=no
    if [ -e "$crate/disk.img" ]; then had_disk=yes; fi
    (cd "$crate" && rt run -- no command) </dev/null 2>&1 | tee "$room/build.log" | while read -r word name _; do
        if [ "$word" = crate ]; then
            echo "  $((($(date +%s) - begin) / 60)) min  ${name%:}"
        fi
    done
    if [ "$had_disk" = no ]; then rm -f "$crate/disk.img"; fi
    if ! grep -q '^rt: running out/apexhost' "$room/build.log" || ! [ -x "$program" ]; then
        cat "$room/build.log" >&2
        echo "demo: the program was not built" >&2
        exit 1
    fi
}

# Runs the program in the folder run, shows what it tells, and compares it with the lines in the file wanted.
# $1 the file of its standard input, then the program's words
show_command() {
    input=$1
    shift
    (cd "$room/run" && "$program" "$@") <"$input" >"$room/told"
    status=$?
    echo "== told by: apexhost $*"
    cat "$room/told"
    echo
    echo "== exit status: $status"
    compare "$status" "apexhost $*"
}

# Makes the folder run with a table, and formats an image there. $1 the table
format_run() {
    rm -rf "$room/run"
    mkdir "$room/run" && cp "$top/examples/$1" "$room/run/module.toml" || exit 1
    if ! (cd "$room/run" && "$program" format) </dev/null >"$room/formatted"; then
        echo "demo: apexhost format was to end with the status 0 over the table examples/$1" >&2
        exit 1
    fi
}

# Shows the script of an example, and runs it over a formatted image of the example's table.
# $1 the table, $2 the example
show_run() {
    show_script "$1" "$2.script"
    format_run "$1"
    cp "$top/examples/$2.told" "$room/wanted"
    show_command "$top/examples/$2.script" run
}

# Shows what `only` tells one partition of an example, over a formatted image. $1 the table, $2 the example, $3 the partition
show_only() {
    echo
    echo "== the same script, of which only the lines that $3 depends on are carried out"
    format_run "$1"
    lines_of "$2" "$3" >"$room/wanted"
    show_command "$top/examples/$2.script" only "$3"
}

# Formats an image for an example's table, and compares what was told and the size of the file.
# $1 the table, $2 the number of blocks that the image is to have
show_format() {
    format_run "$1"
    bytes=$(wc -c <"$room/run/disk.img") || exit 1
    echo
    echo "== told by: apexhost format, over the table examples/$1"
    cat "$room/formatted"
    echo "== the file disk.img: $((bytes)) bytes"
    if [ "$(cat "$room/formatted")" != "formatted $2 blocks" ] || [ "$((bytes))" -ne $(($2 * 512)) ]; then
        echo "demo: formatted $2 blocks and a file of $(($2 * 512)) bytes were wanted" >&2
        exit 1
    fi
}

if [ "${1:-try}" = try ]; then
    try_run
    exit 0
fi
build
show_run small.toml one_file
show_run small.toml short_flight
show_only small.toml short_flight DISP
show_run module.toml first_run
show_run module.toml file_services
show_run module.toml directories
show_run small.toml entries
show_run small.toml ports_and_modes
show_run module_m.toml flight
echo
echo "The replies are those of the files examples/*.told, worked out apart from the program."
show_format small.toml 197
echo
echo "image good trees 1 logbooks 1" >"$room/wanted"
show_command /dev/null check
echo
echo "== runs that are killed in the middle of 20,000 changes, each followed by one that reads what is left (bench/killed.sh)"
sh "$top/bench/killed.sh" "$program" 3 7
