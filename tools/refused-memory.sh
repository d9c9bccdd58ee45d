#!/bin/sh
# Runs a built program once for each allocation that it makes, with that one refused, over three calls:
# a division by zero, a program of two files with strings and a heap, and a unit that `load` makes.
# Each run has to end with status 7 and nothing written, or with the call's own answer; any other one is
# printed. Outside the gate. `rt try --fail-alloc N` does the same for one N, and builds anew each time.
#
# usage: tools/refused-memory.sh PROGRAM
set -eu
program=$(realpath "$1")
examples=$(realpath "$(dirname "$0")/../examples")
work=$(mktemp -d)
trap 'rm -rf "$work"' EXIT

# Stands before malloc and realloc, refuses the call with the number REFUSED, and writes at the end how
# many there were.
cat > "$work/refuse.c" <<'END'
#define _GNU_SOURCE
#include <dlfcn.h>
#include <stdio.h>
#include <stdlib.h>
static unsigned long calls, refused;
static int refuse(void)
{
    if (calls == 0) {
        const char *text = getenv("REFUSED");
        refused = text ? strtoul(text, NULL, 10) : 0;
    }
    return ++calls == refused;
}
void *malloc(size_t size)
{
    static void *(*next)(size_t);
    if (!next) next = (void *(*)(size_t))dlsym(RTLD_NEXT, "malloc");
    return refuse() ? NULL : next(size);
}
void *realloc(void *old, size_t size)
{
    static void *(*next)(void *, size_t);
    if (!next) next = (void *(*)(void *, size_t))dlsym(RTLD_NEXT, "realloc");
    return refuse() ? NULL : next(old, size);
}
__attribute__((destructor)) static void tell(void)
{
    const char *name = getenv("CALLS");
    FILE *file = name ? fopen(name, "w") : NULL;
    if (file) fprintf(file, "%lu\n", calls);
    if (file) fclose(file);
}
END
cc -shared -fPIC -O1 -o "$work/refuse.so" "$work/refuse.c" -ldl

faults=0
refuse_each() {
    status=0
    CALLS="$work/calls" LD_PRELOAD="$work/refuse.so" "$program" "$@" > "$work/answer" || status=$?
    count=$(cat "$work/calls")
    at=1
    while [ "$at" -le "$count" ]; do
        got=0
        REFUSED=$at LD_PRELOAD="$work/refuse.so" "$program" "$@" > "$work/out" 2> "$work/err" || got=$?
        if [ "$got" -eq 7 ] && [ ! -s "$work/out" ] && [ ! -s "$work/err" ]; then :
        elif [ "$got" -eq "$status" ] && cmp -s "$work/out" "$work/answer"; then :
        else
            echo "$*: allocation $at refused: status $got"
            faults=$((faults + 1))
        fi
        at=$((at + 1))
    done
    echo "$*: $count allocations, each refused once"
}

cd "$examples"
refuse_each check divide.c
refuse_each check words.c
refuse_each load load.c --seed 1 --count 4
[ "$faults" -eq 0 ]
