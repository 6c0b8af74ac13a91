#!/bin/sh
# Builds the C examples over the proved static library, runs each, and holds what it prints to what it has to print.
set -eu
cd "$(dirname "$0")/.."
tools/staticlib.sh
mkdir -p target

# Compares what example $1 prints with standard input.
example() {
    ${CC:-cc} -std=c11 -Wall -Wextra -Werror -Iinclude "examples/$1.c" target/staticlib/libcapi.a -o "target/$1"
    "target/$1" >"target/$1.out"
    cat "target/$1.out"
    cmp - "target/$1.out"
}

example lend <<'END'
done
steps 1
flags 0
Rax 5
cell 4096 64 12
END
example evaluations <<'END'
base: Rax 2, flags 2048
base: Rax 9223372036854775808, flags 0
board: Rax 2, flags 0
board: Rax 9223372036854775808, flags 2048
neither: refused 0 at 0
END
example build_kernel <<'END'
22 0c 00 00 00 31 41 00 40 00 00 00 00 00 00 00 00 07 41 00 40 01 00 00 00 00 00 00 00
done
steps 7
Rax 0
stopped
steps 5
Rax 1
scale 3: refused 7
END
example hangs <<'END'
Sub64, Adcx64
fill 0: Rax 7, marked at 17, carry closed, overflow open
fill 1: Rax 8, marked at 17, carry closed, overflow open
Sub64, Add64, Adcx64
fill 0: Rax 7, unmarked, carry closed, overflow open
fill 1: Rax 7, unmarked, carry closed, overflow open
END
example least_fuel <<'END'
cap 4294967295: fuel 4, done, steps 7, Rax 0
cap 4: fuel 4, done, steps 7, Rax 0
cap 3: 61 at 0, steps 6, Rax 0
with a limit of 5:
cap 4: fuel 3, stopped 37 at 17, steps 5, Rax 1
END
