#!/usr/bin/env bash
# compare.sh ROSE: runs the program ROSE on each scene of this folder, and on the lines that the pages show, and
# compares the replies with those that stand there. Ends with 0 where all are equal, with 2 for wrong words, else with 1.
#
# A scene NAME.txt has its replies in NAME.out. In a page a block marked `input` has lines, one marked `words` a command
# line, and the block marked `reply` behind it what they are answered. An `input killed` is killed by SIGKILL once its
# replies have come, while it waits for more lines; an `input audit` is judged, an `input follow` followed, and a `script`
# has lines for the shell. Each scene, and each block of a page, runs in an empty folder of its own, but for the blocks of
# TUTORIAL, STANDBY and BRINGING-IN, which run one after another in one folder a page. What the companion scripts write in
# the last is compared with what stands here.
# In VALUES and LINES each row of a table has a line and its reply, and the block of the README marked `session` has the
# scene `first` with its replies. What EMBEDDING shows is compared with the crate that it is about, whose output is compared
# by the gate. The words of `gen` and `audit`, and such as are no command, run in an empty folder, which has to be empty then.
set -u

[ $# -eq 1 ] && [ -x "$1" ] || { echo "usage: compare.sh ROSE" >&2; exit 2; }
rose=$(realpath "$1")
here=$(cd "$(dirname "${BASH_SOURCE[0]}")" && pwd)
work=$(mktemp -d)
trap 'rm -rf "$work"' EXIT
equal=0 different=0

# judge NAME WANTED GOT: whether the two files are equal
judge() {
    if diff "$2" "$3" > "$work/diff"; then
        equal=$((equal + 1))
    else
        different=$((different + 1))
        echo "$1 differs (< wanted, > given):"
        head -n 20 "$work/diff"
    fi
}

# run GIVEN WORD..: runs the program, its output into GIVEN, with a line more where it doesn't end with 0
run() {
    local given=$1
    shift
    "$rose" "$@" > "$given" || echo "ended with $?" >> "$given"
}

# run_killed LINES GIVEN WANTED: gives the lines, and kills the run once as many bytes have come as are wanted
run_killed() {
    local lines=$1 given=$2 wanted=$3 pid
    rm -f feed && mkfifo feed
    "$rose" run < feed > "$given" &
    pid=$!
    exec 3> feed
    cat "$lines" >&3
    for _ in $(seq 200); do
        [ "$(wc -c < "$given")" -ge "$(wc -c < "$wanted")" ] && break
        sleep 0.05
    done
    { kill -9 "$pid" && wait "$pid"; } 2> "$work/killed"
    exec 3>&-
    rm -f feed
}

# blocks PAGE FOLDER: the blocks of a page, as FOLDER/NUMBER.kind, .lines and .reply, which is empty where none is shown
blocks() {
    awk -v folder="$2" '
        /^```(input|words|script)/ {
            number++; name = sprintf("%s/%03d", folder, number); print substr($0, 4) > (name ".kind")
            printf "" > (name ".reply"); file = name ".lines"; printf "" > file; inside = 1; next }
        /^```reply/         { file = name ".reply"; inside = 1; next }
        /^```/              { inside = 0; next }
        inside              { print > file }' "$1"
}

# page NAME SHARED: each block of a page, in one folder where SHARED is 1, and else in a new one each
page() {
    local name=$1 shared=$2 folder=$work/$1 room at kind
    mkdir -p "$folder" && blocks "$here/../docs/$name.md" "$folder"
    for kind in "$folder"/*.kind; do
        at=${kind%.kind}
        room=$folder/room
        [ "$shared" = 1 ] || room=$at.room
        mkdir -p "$room" && cd "$room" || exit 2
        case $(cat "$kind") in
            input) run "$at.given" run < "$at.lines" ;;
            "input audit"|"input follow") read -r _ word < "$kind" && run "$at.given" "$word" < "$at.lines" ;;
            "input killed") run_killed "$at.lines" "$at.given" "$at.reply" ;;
            script) PATH=$work/bin:$here:$PATH bash "$at.lines" > "$at.given" ;;
            words) read -ra words < "$at.lines" && run "$at.given" "${words[@]:1}" < /dev/null ;;
        esac
        judge "docs/$name.md, block $(basename "$at")" "$at.reply" "$at.given"
    done
}

# rows PAGE PATTERN: the lines of the rows of a page whose first cell is quoted and matches, behind $work/lines, and what
# the second cell quotes behind $work/reply, each reply line by line; a number there stands for `no line` and itself
rows() {
    awk -v lines="$work/lines" -v reply="$work/reply" -v pattern="$2" -F ' [|] ' '
        $1 ~ "^[|] `" && (cell = substr($1, 4, length($1) - 4)) ~ pattern {
            print cell >> lines
            if ($2 ~ /^[0-9]+$/) print "no line " $2 >> reply
            count = split($2, part, "`")
            for (i = 2; i <= count; i += 2) print part[i] >> reply
        }' "$here/../docs/$1.md"
}

# asked PAGE: the lines of $work/lines, in an empty folder, against $work/reply
asked() {
    rm -rf "$work/scene" && mkdir "$work/scene" && cd "$work/scene" || exit 2
    run "$work/given" run < "$work/lines"
    judge "docs/$1.md, the rows" "$work/reply" "$work/given"
}

# marked KIND PAGE: the lines of the blocks of a page that are marked so
marked() {
    awk -v mark="\`\`\`$1" '$0 == mark { inside = 1; next } /^```/ { inside = 0 } inside' "$here/../$2"
}

# shown PAGE CRATE: the blocks of a page marked `output` are, one after another, what the crate's program prints, and
# each line of those marked `rust` stands in its source
shown() {
    local crate=$here/../crates/$2
    judge "$1, the output" "$crate/stdout" <(marked output "$1")
    grep -vxFf <(cat "$crate"/src/*.rt) <(marked rust "$1") > "$work/strange"
    judge "$1, the lines of the program" /dev/null "$work/strange"
}

# untouched WORD..: these words leave an empty folder empty, however the program ends
untouched() {
    rm -rf "$work/scene" && mkdir "$work/scene" && cd "$work/scene" || exit 2
    "$rose" "$@" > "$work/given" 2>&1 < /dev/null
    ls -A > "$work/left"
    judge "the folder that the words '$*' ran in" /dev/null "$work/left"
}

# kept NAME: a file that the blocks of BRINGING-IN wrote, against the one of this folder
kept() {
    judge "examples/$1" "$here/$1" "$work/BRINGING-IN/room/$1"
}

for scene in "$here"/*.txt; do
    name=$(basename "$scene" .txt)
    mkdir "$work/scene" && cd "$work/scene" || exit 2
    run "$work/$name.given" run < "$scene"
    judge "examples/$name" "$here/$name.out" "$work/$name.given"
    rm -rf "$work/scene"
done
export PYTHONDONTWRITEBYTECODE=1
mkdir "$work/bin" && ln -s "$rose" "$work/bin/rose"
page TUTORIAL 1
page REFERENCE 0
page VALUES 0
page STANDBY 1
mkdir -p "$work/BRINGING-IN/room" && cp "$here"/*.geojson "$work/BRINGING-IN/room"
page BRINGING-IN 1
kept meadow.txt
kept meadow.names
kept meadow.svg
"$here/bring_in.py" --rose "$rose" --origin -5 -5 --scale 100 "$here/lots.wkt" > "$work/given"
judge "examples/lots.txt" "$here/lots.txt" "$work/given"
grep -E '^(regions|lines|points) ' "$here/values.txt" > "$work/lines"
grep '^ok ' "$here/values.out" > "$work/reply"
rows VALUES '^(eval|ask|num|faces|sum|decompose|overlay|fusion) '
asked VALUES
: > "$work/lines" > "$work/reply"
rows formats/LINES .
asked formats/LINES
marked session README.md > "$work/session"
judge "README.md, the lines" "$here/first.txt" <(cut -c 1-29 "$work/session" | sed 's/ *$//; /^$/d')
judge "README.md, the replies" "$here/first.out" <(cut -c 30- "$work/session")
shown docs/EMBEDDING.md embedding_example
untouched gen 1 7
untouched gen 1
untouched ship
untouched follow 1
untouched audit
untouched
echo "$equal equal, $different different"
[ "$different" -eq 0 ]
