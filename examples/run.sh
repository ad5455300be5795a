#!/bin/sh
# Builds the example programs with the firmware's library and runs them: the edges of the C interface, then the example
# charts, whose answers are held to examples/check.expected. Exit status: 0 if all is as expected.
# It needs `rt` and `gcc`, and can be called from any folder.
set -eu
LC_ALL=C
export LC_ALL
cd "$(dirname "$0")/.."

rt staticlib firmware

library=target/staticlib/libfirmware.a
for program in edges check; do
    gcc -std=c99 -O2 -Wall -Wextra -Werror -Iinclude "examples/$program.c" "$library" -o "target/$program"
done

target/edges
target/check examples/charts/*.txt > target/check.out
diff -u examples/check.expected target/check.out
cat target/check.out
