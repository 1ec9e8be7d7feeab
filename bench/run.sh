#!/usr/bin/env bash
# What the calls cost on this machine: the table of docs/SPEED.md, line by line, then two long scripts.
#   bench/run.sh [NAME..]    only these lines, and no script
# Needs rt, gcc, valgrind and python3, and cargo for Rust. Writes only under target/. The times want a machine with nothing else to do.
set -euo pipefail
cd "$(dirname "$0")/.."
out=$PWD/target/bench
drive=$PWD/crates/drive/out/drive
mkdir -p "$out"
export PYTHONDONTWRITEBYTECODE=1
export CARGO_TARGET_DIR="$PWD/target/hosts/cargo"

quiet() { # COMMAND..: what it prints is shown where it fails
    "$@" >"$out/log" 2>&1 || {
        cat "$out/log" >&2
        exit 1
    }
}

collected() { # PAD COMMAND..: the instructions of a run, with the environment longer by PAD
    PAD=$1 LD_BIND_NOW=1 valgrind --tool=callgrind --callgrind-out-file=/dev/null "${@:2}" 2>&1 >/dev/null | sed -n 's/.*Collected : \([0-9]*\).*/\1/p'
}

# By where the stack starts, in steps of 16 bytes, memcpy takes more instructions or fewer, up to a tenth of a call by value.
instructions() { # FROM TO COMMAND..: of one, the lesser of two starts; - where the program has no such line
    local status=0
    "${@:3}" "$2" >/dev/null 2>"$out/log" || status=$?
    if [ $status -eq 2 ]; then
        echo -
        return
    elif [ $status -ne 0 ]; then
        cat "$out/log" >&2
        return 1
    fi
    for pad in '' 0123456789abcdef; do
        echo $((($(collected "$pad" "${@:3}" "$2") - $(collected "$pad" "${@:3}" "$1")) / ($2 - $1)))
    done | sort -n | head -n 1
}

told() { # FILE NAME: what a line of it says of that name, - where none does
    awk -v name="$2" '$1 == name { print $2; found = 1 } END { if (!found) print "-" }' "$1"
}

row() { # CELL..: a line of the table; from 100 on numbers are whole, and they have commas
    local cell
    printf '|'
    for cell in "$@"; do printf ' %s |' "${cell:--}"; done | sed -e 's/\([0-9]\{3\}\)\.[0-9]/\1/g' -e ':a' -e 's/\([0-9]\)\([0-9]\{3\}\)\($\|[^0-9]\)/\1,\2\3/' -e 'ta'
    echo
}

least() { # COMMAND..: the least processor time of five runs, in seconds
    for _ in 1 2 3 4 5; do
        (TIMEFORMAT='%3U %3S' && time "$@") 2>&1
    done | awk '{ t = $1 + $2 } NR == 1 || t < least { least = t } END { printf "%.3f", least }'
}

drive() { # with as much stack as it may take
    (ulimit -s 512 && "$drive" <"$1" >/dev/null)
}

(cd crates/bench && quiet rt lib)
quiet gcc -O2 -Wall -Wextra -o "$out/bench" bench/bench.c crates/bench/out/libbench.a
quiet hosts/build
quiet gcc -std=c99 -O2 -o "$out/c" hosts/c/cost.c target/hosts/libregion_store.a
quiet cargo build --manifest-path hosts/rust/Cargo.toml --offline --locked --release --quiet --example cost
ln -sf "$CARGO_TARGET_DIR/release/examples/cost" "$out/rust"
for host in c rust; do "$out/$host" >"$out/$host.ns"; done
python3 hosts/python/cost.py >"$out/python.ns"

row call Rattle C Rust 'by value' before 'ns: Rattle' C Rust Python 'by value'
row --- --- --- --- --- --- --- --- --- --- ---
"$out/bench" | while read -r name from to; do
    [ $# -eq 0 ] || case " $* " in *" $name "*) ;; *) continue ;; esac
    cells=()
    for program in "bench place" c rust "bench value"; do
        # shellcheck disable=SC2086
        cells+=("$(instructions "$from" "$to" "$out/"$program "$name")")
    done
    cells+=("$(told bench/before "$name")" "$("$out/bench" place "$name")")
    for host in c rust python; do cells+=("$(told "$out/$host.ns" "$name")"); done
    row "$name" "${cells[@]}" "$("$out/bench" value "$name")"
done
[ $# -eq 0 ] || exit 0

# Scripts with few reports and audits, and with many: of 1 MiB the instructions of a line, of 10 million bytes the time, printed to nowhere.
(cd crates/drive && quiet rt run </dev/null)
for rates in '10 1' '140 5'; do
    # shellcheck disable=SC2086
    python3 bench/script.py $rates 1048576 >"$out/script" 2>"$out/log"
    quiet drive "$out/script"
    line=$(($(collected '' "$drive" <"$out/script") / $(wc -l <"$out/script")))
    # shellcheck disable=SC2086
    said=$(python3 bench/script.py $rates 2>&1 >"$out/script")
    quiet drive "$out/script"
    echo "script of $said: $(least drive "$out/script") s; of 1 MiB, $line instructions a line"
done
