#!/usr/bin/env bash
# standby.sh ROSE [--kills N] [--seed N]: keeps a map on a primary and on a standby, two folders of this machine, by `rose ship` and
# `rose follow`, while either is killed again and again. Ends with 0 where nothing was lost, with 2 for wrong words, else with 1.
#
# In each round the primary draws some lines, and ships from the number that was acknowledged last, or an older one, as where an
# acknowledgement is lost. On the way standby_filter.py loses frames, gives some again, also those of earlier rounds, and changes their
# order. One of the programs `run`, `ship` and `follow` is killed by SIGKILL at a random moment; a round in which it had ended before
# doesn't count. Then the standby is opened again, and has to have at least as many changes as it has acknowledged, and the same numbers
# as the primary where it has as many. After N kills what is lacking is shipped without the filter. Then both must be answered the same by
# `check` and by `realm`, and ship the same from 0 on; and where all is records, file A must be the same.
#
# This is done over a pipe, of records alone; over a pipe, with checkpoints, so that whole states are shipped; and so over a socket of this
# machine by socat, which is left out where that isn't there. Files lie in TMPDIR: in memory it is quicker.
set -u

usage() { echo "usage: standby.sh ROSE [--kills N] [--seed N]" >&2; exit 2; }
[ $# -ge 1 ] && [ -x "$1" ] || usage
rose=$(realpath "$1")
shift
kills=12 seed=7
while [ $# -gt 0 ]; do
    case $1 in
        --kills) kills=${2:?} ;;
        --seed) seed=${2:?} ;;
        *) usage ;;
    esac
    shift 2
done
here=$(cd "$(dirname "${BASH_SOURCE[0]}")" && pwd)
work=$(mktemp -d)
trap 'rm -rf "$work"' EXIT
export PYTHONDONTWRITEBYTECODE=1
RANDOM=$seed
# Thousandths of a second until a kill, at most: of `run` on the primary, of `ship` there, and of `follow` on the standby.
declare -A longest=([drawing]=60 [primary]=12 [follower]=120)

fail() {
    echo "$way: $*" >&2
    exit 1
}

# started FOLDER WORD..: runs the program there. FOLDER.pid has its process id, and in the end FOLDER.status its status
started() {
    local folder=$1
    shift
    (cd "$folder" && exec "$rose" "$@") <&0 &
    echo $! > "$folder.pid.new" && mv "$folder.pid.new" "$folder.pid"
    { wait $!; } 2> /dev/null
    echo $? > "$folder.status"
}

# strike FOLDER MOMENT: kills what is started there next by SIGKILL, so many thousandths of a second after its start
strike() {
    until [ -e "$1.pid" ]; do sleep 0.001; done
    sleep "$(printf '0.%03d' "$2")"
    kill -9 "$(cat "$1.pid")" 2> /dev/null
}

# drawn SEED CHECKPOINTS: some lines to draw, changes alone and in groups, and, if this is 1, a checkpoint now and then
drawn() {
    awk -v seed="$1" -v checkpoints="$2" '
        function among(count) { return int(rand() * count) }
        function change(   x, y) {
            x = among(2000); y = among(2000)
            return among(4) ? sprintf("segment %d %d %d %d", x, y, x + 1 + among(40), y + among(40)) : "point " x " " y }
        BEGIN {
            srand(seed)
            for (i = among(8); i >= 0; i--) {
                grouped = among(4) == 0
                if (grouped) print "begin"
                for (j = grouped ? among(5) : 0; j >= 0; j--) print change()
                if (grouped) print among(6) ? "commit" : "abandon"
                if (checkpoints && among(12) == 0) print "checkpoint" } }'
}

# changes FOLDER: how many changes are there; none where the folder can't be opened
changes() {
    (cd "$1" && "$rose" check) | tee "$1.checked" | awk '$1 == "changes" { print $2 }'
}

# filtered SEED: the bad way, on which frames are lost, given again and put in another order
filtered() {
    "$here/standby_filter.py" "$1" pool 2>> counts
}

# over_pipe K FILTER..: ships from K by way of a filter; what the standby answers goes into `acks`
over_pipe() {
    started primary ship "$1" | "${@:2}" | started follower follow > acks
}

# over_socket K FILTER..: the same over a socket, and the answers come back over another
over_socket() {
    local there=$((20000 + RANDOM % 10000)) back
    back=$((there + 10000))
    socat -u "TCP-LISTEN:$back,$LISTEN" - > acks 2>> socat.said &
    socat -u "TCP-LISTEN:$there,$LISTEN" - 2>> socat.said | started follower follow \
        | socat -u - "TCP:127.0.0.1:$back,$CONNECT" 2>> socat.said &
    started primary ship "$1" | "${@:2}" | socat -u - "TCP:127.0.0.1:$there,$CONNECT" 2>> socat.said
    wait
}
LISTEN=bind=127.0.0.1,reuseaddr,accept-timeout=20
CONNECT=retry=500,interval=0.02

# ended FOLDER STATUS..: whether the program that was started there ended with one of these; 137 is a kill
ended() {
    local status
    status=$(cat "$1.status") && [[ " ${*:2} " == *" $status "* ]] || fail "the $1 ended with ${status:-nothing}"
}

# heard: takes note of the answers
heard() {
    grep -qvE '^(ack [0-9]+|no frame)?$' acks && fail "the standby answered $(grep -vE '^(ack|no frame)' acks | head -n 1)"
    acked=$(awk -v most="$acked" '$1 == "ack" && $2 > most { most = $2 } END { print most + 0 }' acks)
}

# draw CHECKPOINTS VICTIM: the primary draws some lines; it is killed meanwhile if it is the victim
draw() {
    rm -f primary.pid primary.status
    if [ "$2" = drawing ]; then
        strike primary $((RANDOM % longest[drawing])) &
        { drawn "$RANDOM" "$1"; sleep 0.1; } | started primary run > replies
    else
        drawn "$RANDOM" "$1" | started primary run > replies
    fi
    wait
    ended primary 0 137
    [ "$2" = drawing ] && killed=$((killed + ($(cat primary.status) == 137)))
}

# send WAY VICTIM: the primary ships, and the standby follows; either is killed meanwhile if it is the victim
send() {
    local from=$acked
    [ $((RANDOM % 4)) != 0 ] || from=$((RANDOM % (acked + 1)))
    rm -f primary.pid primary.status follower.pid follower.status
    [ "$2" = drawing ] || strike "$2" $((RANDOM % longest[$2])) &
    "over_$1" "$from" filtered "$RANDOM"
    wait
    ended primary 0 3 137
    ended follower 0 137
    [ "$2" = drawing ] || killed=$((killed + ($(cat "$2.status") == 137)))
    heard
}

# look: what the standby has must be what it has acknowledged, or more, and what the primary had
look() {
    local there before
    there=$(changes primary)
    before=$(changes follower)
    [ -n "$there" ] && [ -n "$before" ] || fail "a folder can't be opened any more"
    [ "$before" -ge "$acked" ] || fail "change $acked was acknowledged, and $before are on the disk"
    [ "$before" -le "$there" ] || fail "the standby has $before changes, the primary $there"
    [ "$before" -lt "$there" ] || cmp -s primary.checked follower.checked || fail "other numbers at change $there"
}

# told FOLDER LINE..: what a run answers there
told() {
    (cd "$1" && printf '%s\n' "${@:2}" | "$rose" run)
}

# same_files: where all is records, file A is the same up to the gate behind the last, which stand behind a head without pages. A
# kill may leave bytes behind that gate
same_files() {
    local length
    length=$(awk '{ sum += length($2) / 2 + 1 } END { print 4096 + sum + 1 }' primary.shipped)
    cmp -n "$length" primary/realm.a follower/realm.a || fail "the files of the primary and its standby differ"
}

# compare CHECKPOINTS: both have the same map, and ship the same
compare() {
    local folder
    for folder in primary follower; do
        told "$folder" realm > "$folder.realm"
        [ "$1" = 0 ] || told "$folder" checkpoint > /dev/null
        (cd "$folder" && "$rose" ship 0) > "$folder.shipped"
    done
    cmp primary.checked follower.checked && cmp primary.realm follower.realm && cmp primary.shipped follower.shipped \
        && [ -s primary.shipped ] || fail "the primary and its standby differ"
    [ "$1" = 1 ] || same_files
}

# keep NAME WAY CHECKPOINTS: all rounds over this way
keep() {
    way=$1 acked=0 killed=0
    local victims=(drawing primary follower) victim rounds=0
    mkdir -p "$work/$1/primary" "$work/$1/follower" && cd "$work/$1" && : > counts || exit 2
    while [ "$killed" -lt "$kills" ]; do
        victim=${victims[RANDOM % 3]} rounds=$((rounds + 1))
        draw "$3" "$victim"
        send "$2" "$victim"
        look
    done
    over_pipe "$acked" cat
    heard
    look
    [ "$acked" = "$(changes primary)" ] || fail "the last change wasn't acknowledged"
    compare "$3"
    echo "$way: $killed kills in $rounds rounds, $acked changes, $(awk '
        { for (i = 1; i <= 9; i += 2) sum[i] += $i }
        END { print sum[1] " frames with " sum[3] " states, of which " sum[5] " were lost, " sum[7] " came again, " sum[9] " had to wait" }
    ' counts); nothing is lacking"
}

keep records pipe 0
keep checkpoints pipe 1
if command -v socat > /dev/null; then
    keep socket socket 1
else
    echo "socket: left out, since socat isn't there"
fi
