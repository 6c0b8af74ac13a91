#!/bin/sh
# Times an earlier static library and this one in one program, at many placements: where a library lies moves its time by
# more than what two versions differ by. A placement puts both at offsets of their own from a page, the one or the other
# first. Prints the mean nanoseconds a step of both, and the mean of the ratios with its standard error.
#
#     bench/beside.sh FOLDER [PLACEMENTS]     FOLDER has the earlier libcapi.a; 32 placements, or 2 at least, take three minutes
set -eu
earlier=$(cd "$1" && pwd)
placements=${2:-32}
cd "$(dirname "$0")/.."
tools/staticlib.sh >target/beside.say 2>&1 || { cat target/beside.say; exit 1; }
cargo build --release --offline --quiet --manifest-path bench/Cargo.toml --target-dir target/bench
work=target/beside
rm -rf "$work"
mkdir -p "$work/jobs"
jobs=$(target/bench/release/bench write "$work/jobs")

# LIBRARY NAME: one object, whose only name is NAME_job.
whole() {
    ld -r --whole-archive -o "$work/whole.o" "$1"
    objcopy --redefine-sym pokchrei_job="$2_job" --keep-global-symbol="$2_job" "$work/whole.o" "$work/$2.o"
}

# NAME OFFSET: an object of code that ends OFFSET bytes behind the start of a page.
pad() {
    printf '.section .text.pad,"ax"\n.balign 4096\n.skip %d\n.section .note.GNU-stack,"",@progbits\n' "$2" | as -o "$work/$1.o" -
}

whole "$earlier/libcapi.a" before
whole target/staticlib/libcapi.a after
for i in $(seq "$placements"); do
    pad one "$((i * 7919 % 256 * 16))"
    pad other "$((i * 104729 % 256 * 16))"
    if [ $((i % 2)) -eq 0 ]; then order="one.o before.o other.o after.o"; else order="one.o after.o other.o before.o"; fi
    (cd "$work" && cc -O2 -o beside ../../bench/beside.c $order)
    "$work/beside" $jobs
done >"$work/times"
awk '
    { if (!($1 in n)) names[kinds++] = $1
      n[$1]++; before[$1] += $2; after[$1] += $3; ratio = $3 / $2; sum[$1] += ratio; squares[$1] += ratio * ratio }
    END { for (i = 0; i < kinds; i++) { k = names[i]; mean = sum[k] / n[k]
        error = sqrt((squares[k] / n[k] - mean * mean) / (n[k] - 1))
        printf "%-18s before %6.2f  after %6.2f  after / before %.3f +- %.3f\n", k, before[k] / n[k], after[k] / n[k], mean, error } }
' "$work/times"
