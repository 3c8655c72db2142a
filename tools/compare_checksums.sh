#!/bin/sh
# Compares the checksum of a page of 4,096 bytes with that of Debian's zlib (package zlib1g-dev): builds a small C program in a
# folder of its own, runs it and the bench in turn, and prints the nanoseconds of one page of each. COUNT pages (20000).
#
#     (cd crates/disk_bench && rt run < stdin) && tools/compare_checksums.sh [COUNT]
set -e
count=${1:-20000}
top=$(cd "$(dirname "$0")/.." && pwd)
room=$(mktemp -d)
trap 'rm -r "$room"' EXIT
cat > "$room/page.c" <<'C'
#include <stdio.h>
#include <stdlib.h>
#include <string.h>
#include <time.h>
#include <zlib.h>

int main(int argc, char **argv) {
    static unsigned char page[4096];
    struct timespec from, to;
    unsigned long sum = 0;
    long count = argc > 1 ? atol(argv[1]) : 20000;
    memset(page, 7, sizeof page);
    clock_gettime(CLOCK_PROCESS_CPUTIME_ID, &from);
    for (long round = 0; round < count; round++) {
        page[0] = (unsigned char)round;
        sum ^= crc32(0, page, sizeof page);
    }
    clock_gettime(CLOCK_PROCESS_CPUTIME_ID, &to);
    double used = (to.tv_sec - from.tv_sec) * 1e9 + (to.tv_nsec - from.tv_nsec);
    printf("zlib %s, crc32 of 4096 bytes: %.1f ns (sum %lu)\n", zlibVersion(), used / count, sum);
    return 0;
}
C
cc -O2 -o "$room/page" "$room/page.c" -lz
for round in 1 2 3; do
    "$room/page" "$count"
    echo "storage $count" | "$top/crates/disk_bench/out/disk_bench" 2>&1 >/dev/null | grep -E 'checksum|ratio'
done
