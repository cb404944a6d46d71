/* The two calls of plain PBM as a program, for compare.py: pbm write FORMAT < PICTURE > FILE, pbm read FORMAT < FILE >
   PICTURE, with the format's number from include/gdp.h. The exit status is the refusal number, and a refusal writes
   nothing; 64 means that the program itself could not do its work. */
#include "gdp.h"

#include <stdio.h>
#include <stdlib.h>
#include <string.h>

enum { MOST = 8 << 20, NOT_DONE = 64 };
static uint8_t given[MOST], made[GDP_FMAT_HIGH_PBM_BYTES];

static void stop(const char *sentence) {
    fprintf(stderr, "tests/netpbm/pbm.c: %s\n", sentence);
    exit(NOT_DONE);
}

static void hand_over(const uint8_t *bytes, size_t length) {
    if (fwrite(bytes, 1, length, stdout) != length || fflush(stdout) != 0)
        stop("standard output could not be written.");
}

static int written(unsigned format, size_t length) {
    gdp_pbm_answer a = gdp_write_pbm((uint8_t)format, given, length, made, sizeof made);
    hand_over(made, a.value);
    return a.number;
}

static int read_in(unsigned format, size_t length) {
    static const size_t lengths[] = {GDP_EF9366_BYTES, GDP_FMAT_HIGH_BYTES, GDP_FMAT_LOW_BYTES};
    gdp_pbm_answer a = gdp_read_pbm((uint8_t)format, given, length, made, lengths[format]);
    if (a.number == GDP_ACCEPTED)
        hand_over(made, lengths[format]);
    return a.number;
}

int main(int argc, char **argv) {
    unsigned format = argc == 3 ? (unsigned)atoi(argv[2]) : 3;
    if (format > 2 || (strcmp(argv[1], "write") != 0 && strcmp(argv[1], "read") != 0))
        stop("it is run as pbm write FORMAT or pbm read FORMAT, and a format is 0, 1 or 2.");
    size_t length = fread(given, 1, sizeof given, stdin);
    if (ferror(stdin) || length == sizeof given)
        stop("standard input could not be read, or is too long.");
    return argv[1][0] == 'w' ? written(format, length) : read_in(format, length);
}
