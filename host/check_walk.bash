# shellcheck shell=bash
# The walking host's part of host/check, which reads this file in and shares its names: $out, $bad, $reference, memcheck and expect_failure.
# What host/walk.c prints is held against what the reference says on playing the same steps.
# shellcheck disable=SC2154

# What it is run on: a file and codes. Each "play" of the reference is a book, now and then a damaged one, with steps on it.
walk_runs() {
    local book seed play length
    echo samples/e.policy 3 3 3 0 5
    echo samples/a.policy
    echo samples/g.policy 1 0 0 1 2 3 4 255 256 257
    echo samples/norules.policy 0 1 6 7 4294967295 4294967296 4294967297 18446744073709551615 18446744073709551616
    echo samples/several.policy 1 2 0 25 26 65536
    echo samples/wide.policy {0..140}
    echo "$bad/a.book" 3 4 3 4 3 4
    echo "$out/books/late-finding-book.book" {0..20} {20..0}
    echo "$bad/11-situations.policy" 0
    for book in "$bad"/{12-short,13-no-states,13-shorter,14-entry}.book; do echo "$book" 0 1 2; done
    for seed in {1..12}; do
        play=$out/books/play-$seed
        "$reference" generate play "$seed" "$play"
        length=$(od -An -tu1 -N2 "$play" | awk '{ print 256 * $1 + $2 }')
        tail -c +3 "$play" | head -c "$length" > "$play.book"
        echo "$play.book" "$(tail -c +$((length + 3)) "$play" | head -c 255 | od -An -v -tu1 -w255)"
    done
}

# Numbers as bytes; one above 255, which is no code of any book, as 255.
as_bytes() { printf '%b' "$(awk 'BEGIN { for (i = 1; i < ARGC; i++) printf "\\x%02x", (ARGV[i] > 255) ? 255 : ARGV[i] }' "$@")"; }

# The input of the reference's play: the length of the book in two bytes, the high byte first, the book, and a byte for each code.
play_input() { # BOOK CODE..
    local book=$1 length
    shift
    length=$(stat -c %s "$book")
    as_bytes $((length / 256)) $((length % 256))
    cat "$book"
    as_bytes "$@"
}

# The reference's answer in the words of the walking host. In a book the sixth byte is the number of events, the twelfth that of the states.
walk_in_words() { # FILE CODE..
    local file=$1 book=$out/walk.book
    shift
    if "$reference" way "$file" 0 0 2>&1 | grep '^refused by number' | sed "s|^|$file: |"; then
        echo "exit status 1"
        return
    fi
    if [ "$(head -c 3 "$file")" = BOK ]; then cp "$file" "$book"; else "$reference" build "$file" "$book"; fi
    play_input "$book" "$@" > "$out/walk.play"
    "$reference" play "$out/walk.play" | awk -v codes="$*" -v size="$(stat -c %s "$book")" -v header="$(od -An -tu1 -N12 "$book")" '
        function step(code) {
            if (code < events) return "event " code
            return "request " int((code - events) / 2) ((code - events) % 2 == 0 ? " accepted" : " rejected")
        }
        function state(    i, text) {
            text = "state " $1
            for (i = 2; i <= NF; i++) text = text (i == 2 ? ": " : ", ") "request " i - 2 " " $i
            return text
        }
        BEGIN {
            split(codes, given, " ")
            split(header, byte, " ")
            events = byte[6]
            width = (size - 12) / byte[12]
        }
        NR == 1 { print "at the start, " state(); next }
        { code = given[NR - 1] + 0; printf "%5s  ", given[NR - 1] }
        code >= width { print "no such code: they are 0 to " width - 1; next }
        /^refused/ { print step(code) ": not possible"; next }
        { print step(code) ", to " state() }
        END { print "exit status 0" }'
}

check_walk() {
    local at=$out/walk file codes code status
    walk_runs > "$at.runs"
    while read -r file codes; do
        echo "\$ walk $file $codes"
        # shellcheck disable=SC2086 # the codes
        walk_in_words "$file" $codes
    done < "$at.runs" > "$at.wanted"
    while read -r file codes; do
        echo "\$ walk $file $codes"
        status=0
        # shellcheck disable=SC2086 # the codes
        memcheck "$out/walk" "$file" $codes 2>&1 || status=$?
        echo "exit status $status"
    done < "$at.runs" > "$at.told"
    diff -u -F '^[$] ' "$at.wanted" "$at.told"
    # What the document shows of the first run.
    "$out/walk" samples/e.policy 3 3 3 0 5 > "$at.told"
    diff "$at.told" <(sed -n '/^    at the start, /,/^$/s/^    //p' docs/C-INTERFACE.md)
    expect_failure "usage: walk FILE CODE.." memcheck "$out/walk"
    for code in -1 0x0 +3 '' '3 '; do expect_failure "usage: walk FILE CODE.." "$out/walk" samples/e.policy 3 "$code"; done
    expect_failure "samples/none.policy: cannot be read" memcheck "$out/walk" samples/none.policy 3
    status=0
    "$out/walk" samples/e.policy 3 > /dev/full 2> "$at.told-errors" || status=$?
    [ "$status" = 2 ] || { echo "walk on a full device: exit status $status"; exit 1; }
    echo "host/walk.c: $(wc -l < "$at.runs") runs, each as the reference says"
}
