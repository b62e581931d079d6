#!/bin/sh
# compare.sh COMPILE COUNT: assembles COUNT random modules on x86-64, and compares how their runs end, and what
# they leave in memory, with what the program `compile`, which is at the path COMPILE, says of them and of their code.
# The last run of each has little room on the stack.
set -eu
compile=$1
count=$2
here=$(dirname "$0")
made=$(mktemp -d)
trap 'rm -r "$made"' EXIT
seed=0
traps=0
overflows=0
while [ "$seed" -lt "$count" ]; do
    "$compile" random "$seed" >"$made/f.txt"
    "$compile" "$made/f.txt" >"$made/f.s"
    "${CC:-cc}" -std=gnu11 -Wall -Wextra -O2 -o "$made/f" "$here/compiled.c" -x assembler "$made/f.s"
    size=$(sed -n 's/^memory //p' "$made/f.txt")
    for run in "131072 0 0 0" "131072 1 2 3" "131072 $seed 18446744073709551615 1" "$((20 + seed % 150)) 3 $seed 7"; do
        room=${run%% *}
        arguments=${run#* }
        # shellcheck disable=SC2086
        ended=$("$made/f" -r "$room" -m "$size" $arguments)
        returned=$(printf '%s\n' "$ended" | head -n 1)
        # shellcheck disable=SC2086
        said=$("$compile" run --memory --room "$room" "$made/f.txt" $arguments) && agreed=1 || agreed=0
        if [ "$(printf '%s\n' "$said" | tail -n +2)" != "its code: $ended" ] ||
            { [ "$agreed" -eq 0 ] && [ "$returned" != "stack overflow" ]; }; then
            echo "module $seed of $arguments with room for $room words doesn't end as said:"
            echo "$ended"
            echo "$said"
            exit 1
        fi
        case $returned in
        trapped) traps=$((traps + 1)) ;;
        "stack overflow") overflows=$((overflows + 1)) ;;
        esac
    done
    seed=$((seed + 1))
done
echo "$count modules end as is said of them; $traps runs trap, and $overflows overflow the stack"
