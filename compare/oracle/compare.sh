#!/bin/sh
# Holds the proved programs against the firmware: compare/oracle/compare.sh FIRMWARE_SRC [TICKS]
# Passes for every k from 1 to 64, each with a seed of its own and ended by a refused block, behind
# which others follow: drive against `ticks`, and the program that replays each tick's words against
# `ticks --full`, byte by byte. TICKS in all, 2,000,000 if not given.
# With UNPROVED=1 both are built without proof. Prints the counts and the differences, and ends with 1 if
# there are any.
set -eu
replay=replay_ticks
compare=$(cd "$(dirname "$0")/.." && pwd)
[ $# -ge 1 ] || { echo "usage: compare/oracle/compare.sh FIRMWARE_SRC [TICKS]" >&2; exit 2; }
FIRMWARE_SRC=$(cd "$1" && pwd)
export FIRMWARE_SRC
ticks=${2:-2000000}
first_seed=${SEED:-1000}

target=${CARGO_TARGET_DIR:-$compare/target}
rust=$target/release
cargo build --quiet --release --offline --manifest-path "$compare/Cargo.toml" --package oracle --target-dir "$target"
drive=$("$compare/../tools/build.py" ${UNPROVED:+--unproved} drive)
replay=$("$compare/../tools/build.py" ${UNPROVED:+--unproved} $replay)

room=$(mktemp -d)
trap 'rm -rf "$room"' EXIT
compared=0 blocks=0 bytes=0 differences=0

# A pass of so many ticks, its refused block and three blocks of another pass; none behind a short one.
draw() { # SEED TICKS K REFUSAL
    if [ "$4" -eq 5 ]; then more=0; else more=3; fi
    "$rust/blocks" "$1" $(($2 + 1)) "$3" "$4" $more >"$room/pass"
}

# Counts a difference between the files of the firmware and of a proved program.
same() { # WHAT PROGRAM
    if ! cmp "$room/firmware" "$room/proved"; then
        echo "$1: $(basename "$(dirname "$2")") differs from the firmware"
        differences=$((differences + 1))
    fi
    bytes=$((bytes + $(wc -c <"$room/firmware")))
}

# Compares both programs with the firmware on the file pass.
hold() { # WHAT
    "$rust/ticks" --full --passes <"$room/pass" >"$room/firmware"
    "$replay" <"$room/pass" >"$room/proved"
    same "$1" "$replay"
    blocks=$((blocks + $(wc -c <"$room/firmware") / 384))
    "$rust/ticks" <"$room/pass" >"$room/firmware"
    "$drive" <"$room/pass" >"$room/proved"
    same "$1" "$drive"
    compared=$((compared + $(tail -n 1 "$room/firmware" | cut -d' ' -f1)))
    tail -n 1 "$room/firmware" >>"$room/totals"
    tail -n 2 "$room/firmware" | sed -n 's/.* ! //p' >>"$room/refusals"
}

k=1
for refusal in $(yes '1 4 5 6 7 8 9 10' | head -n 8); do
    draw $((first_seed + k)) $(((ticks + 63) / 64)) $k "$refusal"
    hold "k $k, seed $((first_seed + k)), refusal $refusal"
    k=$((k + 1))
done

# Each refusal of a first block, and after few ticks.
for refusal in 1 4 5 6 7 8 10; do
    for seed in 1 2 3 4 5 6 7 8; do
        draw $seed 0 32 "$refusal"
        hold "a first block refused with $refusal"
    done
done
for refusal in 1 4 5 6 7 8 9 10; do
    for seed in 1 2 3 4 5 6 7 8 9 10 11 12 13 14 15 16; do
        draw $((first_seed * 7 + seed * 16 + refusal)) 39 $((seed * 4)) "$refusal"
        hold "k $((seed * 4)), refusal $refusal after 39 ticks"
    done
done
: >"$room/pass"
hold "no block"

awk '{ for (i = 2; i <= 9; i++) n[i] += $i }
     END { split("Q G C S T J F R", l, " "); for (i = 2; i <= 9; i++) printf "%s %d%s", l[i - 1], n[i], i < 9 ? ", " : "\n" }' "$room/totals"
sort -n "$room/refusals" | uniq -c | awk '{ printf "refused with %s: %d%s", $2, $1, "; " } END { print "" }'
echo "$compared ticks in $(wc -l <"$room/totals") passes, $blocks blocks, $bytes bytes compared, $differences differences"
[ "$differences" -eq 0 ]
