/* Writes the journal that the program leaves of a plan of one machine with so many cutovers, by
   the least that a journal owes its disk: two writes and two syncs a record.
   Usage: cutover FILE CUTOVERS */
#include <fcntl.h>
#include <stdint.h>
#include <stdio.h>
#include <stdlib.h>
#include <string.h>
#include <unistd.h>

static const unsigned char magic[] = "WARMJNL1"; /* with the closed gate behind it */
static const unsigned char plan_made[] = {
    1, 0, 0, 0, 1, 1, 'p', 0, 0, 0, 60, 0, 0, 0, 1, 0, 0, 0, 1,
};
static const unsigned char started[] = {
    2, 0, 0, 0, 1, 0, 0, 0, 1, 0, 0, 0, 1, 0, 0, 0, 1,
};
static const unsigned char cutover_set[] = {12, 0, 0, 0, 1, 0, 0, 0, 0, 0, 0, 0, 0, 0};

static void fail(const char *what) {
    perror(what);
    exit(1);
}

static void write_at(int file, off_t at, const unsigned char *bytes, size_t count) {
    if (pwrite(file, bytes, count, at) != (ssize_t)count) fail("pwrite");
}

static void sync_it(int file) {
    if (fdatasync(file) != 0) fail("fdatasync");
}

/* The cell and a closed gate behind the end, then the gate before it; the new end. */
static off_t append(int file, off_t end, const unsigned char *body, uint32_t count) {
    unsigned char cell[64] = {count >> 24, count >> 16, count >> 8, count};
    memcpy(cell + 4, body, count);
    cell[4 + count] = 0;
    write_at(file, end, cell, 5 + count);
    sync_it(file);
    write_at(file, end - 1, (const unsigned char[]){1}, 1);
    sync_it(file);
    return end + 5 + count;
}

int main(int argc, char **argv) {
    if (argc != 3) {
        fprintf(stderr, "usage: cutover FILE CUTOVERS\n");
        return 1;
    }
    long cutovers = strtol(argv[2], NULL, 10);
    int file = open(argv[1], O_RDWR | O_CREAT | O_TRUNC, 0666);
    if (file < 0) fail(argv[1]);
    write_at(file, 0, magic, sizeof magic);
    sync_it(file);
    off_t end = append(file, sizeof magic, plan_made, sizeof plan_made);
    end = append(file, end, started, sizeof started);
    for (long turn = 0; turn < cutovers; turn++)
        end = append(file, end, cutover_set, sizeof cutover_set);
    return 0;
}
