#!/bin/sh
# Builds the library and the C program, sees that the library needs no name from outside, runs the program on the sheets that are
# built in and on the shipped cases, and compares the answers with the expected ones. A library that is there already can be given: c/run.sh LIBRARY
set -eu
cd "$(dirname "$0")/.."

if [ $# -gt 0 ]; then
    library=$1
else
    (cd crates/sheet_c && rt lib)
    mkdir -p target/staticlib
    library=target/staticlib/libsheet.a
    cp crates/sheet_c/out/libsheet_c.a "$library"
fi

# a program without a C library can link it: it needs no name from outside
needed=$(nm -u "$library")
if echo "$needed" | grep ' U '; then
    echo "the library needs these names from outside"
    exit 1
fi

cases=crates/check_cases
out=target/c
mkdir -p "$out"

sanitize=-fsanitize=address,undefined
printf 'int main(void) { return 0; }\n' > "$out/probe.c"
if ! { cc "$sanitize" "$out/probe.c" -o "$out/probe" && "$out/probe"; } 2> /dev/null; then
    echo "no sanitizers here: compiled without"
    sanitize=
fi

# $sanitize is one word or none
cc -std=c11 -Wall -Wextra -Werror -O1 -g $sanitize c/check_main.c "$library" -o "$out/check_main"

echo "the sheets that are built in:"
"$out/check_main"

"$out/check_main" "$cases/stdin" > "$out/answers"
all=$(wc -l < "$cases/stdout")
if diff "$cases/stdout" "$out/answers" > "$out/differences"; then
    echo "cases: $all of $all answers agree"
else
    cat "$out/differences"
    agree=$(paste "$cases/stdout" "$out/answers" | awk -F '\t' '$1 == $2' | wc -l)
    echo "cases: $agree of $all answers agree"
    exit 1
fi
