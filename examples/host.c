/* A first lesson in the library: draws a forecast of 96 points, reads STATUS, writes the picture as a plain PBM file,
   takes the curve away again, and reads the file back. With a name, host morning.pbm, it keeps the file under it.
   README.md says how to build it. Where something is not as it should be it says so and ends with status 1. */
#include "gdp.h"

#include <stdio.h>
#include <stdlib.h>

enum { POINTS = 96, LEFT = 24, STEP = 5, WIDTH = 512 };
enum { PEN = 0x43, ERASER = 0x41 };         /* CTRL1: down, a flag when ready rises, and bit 1 says which of the two */
enum { VECTOR = 0x11, VECTOR_DOWN = 0x15 }; /* X grows; Y grows or falls */

/* Sulphide over a day of quarter hours: the height of each point. */
static const uint8_t forecast[POINTS] = {
    45, 45, 45, 45, 46, 46, 46, 47, 48, 49, 51, 53, 56, 60, 65, 71, 78, 86, 95, 106, 117, 129, 142, 155,
    168, 179, 190, 198, 205, 209, 210, 209, 205, 198, 190, 179, 168, 155, 142, 130, 117, 106, 95, 86, 78, 71, 66, 61,
    58, 56, 54, 54, 54, 54, 56, 58, 60, 63, 67, 71, 76, 81, 87, 93, 100, 106, 113, 119, 125, 130, 135, 139,
    142, 143, 144, 143, 142, 139, 135, 130, 125, 119, 113, 106, 100, 93, 87, 81, 76, 71, 67, 63, 60, 57, 54, 52,
};

/* The library keeps nothing between calls: this is the whole card. */
typedef struct {
    gdp_state state;
    uint8_t *picture, *table;
} card;

static void expect(const char *what, unsigned found, unsigned wanted) {
    if (found == wanted)
        return;
    fprintf(stderr, "host.c: %s is %u and should be %u.\n", what, found, wanted);
    exit(1);
}

/* Goes on with an answer's state, if the call was accepted. */
static unsigned taken(card *c, gdp_answer answer, const char *call) {
    expect(call, answer.number, GDP_ACCEPTED);
    c->state = answer.state;
    return answer.value;
}

static void put(card *c, uint8_t address, unsigned value) {
    taken(c, gdp_write(c->state, address, (uint8_t)value), "the refusal number of a write");
}

static unsigned status(card *c) {
    return taken(c, gdp_read(c->state, GDP_STATUS), "the refusal number of a read");
}

static void move(card *c, unsigned x, unsigned y) {
    put(c, GDP_X_UPPER, x >> 8);
    put(c, GDP_X_LOWER, x & 255);
    put(c, GDP_Y_UPPER, y >> 8);
    put(c, GDP_Y_LOWER, y & 255);
}

/* One vector from point to point, each run to its end. Answers the write cycles used. */
static unsigned curve(card *c) {
    unsigned cycles = 0;
    for (int i = 1; i < POINTS; i++) {
        int rise = forecast[i] - forecast[i - 1];
        put(c, GDP_DELTAX, STEP);
        put(c, GDP_DELTAY, (unsigned)abs(rise));
        put(c, GDP_CMD, rise < 0 ? VECTOR_DOWN : VECTOR);
        gdp_answer granted = gdp_grant(c->state, 65535, c->picture, GDP_EF9366_BYTES, c->table, GDP_TABLE_BYTES);
        cycles += taken(c, granted, "the refusal number of a grant");
    }
    return cycles;
}

static unsigned dot(const card *c, unsigned x, unsigned y) {
    return c->picture[y * (WIDTH / 8) + x / 8] >> x % 8 & 1;
}

static unsigned lit(const card *c) {
    unsigned dots = 0;
    for (unsigned i = 0; i < 8 * GDP_EF9366_BYTES; i++)
        dots += dot(c, i % WIDTH, i / WIDTH);
    return dots;
}

static void keep(const char *name, const uint8_t *file, size_t length) {
    FILE *out = fopen(name, "wb");
    if (out && fwrite(file, 1, length, out) == length && fclose(out) == 0)
        return;
    fprintf(stderr, "host.c: the picture could not be written to %s.\n", name);
    exit(1);
}

int main(int argc, char **argv) {
    card c = {.picture = calloc(GDP_EF9366_BYTES, 1), .table = calloc(GDP_TABLE_BYTES, 1)};
    if (!c.picture || !c.table) {
        fprintf(stderr, "host.c: there is no memory for the picture.\n");
        return 1;
    }
    taken(&c, gdp_fresh(GDP_EF9366), "the refusal number of a fresh state");
    expect("the first STATUS", status(&c), 0x05);

    put(&c, GDP_CTRL1, PEN);
    move(&c, LEFT, forecast[0]);
    const gdp_state start = c.state;
    unsigned cycles = curve(&c), dots = lit(&c);
    for (unsigned i = 0; i < POINTS; i++)
        expect("a point's dot", dot(&c, LEFT + STEP * i, forecast[i]), 1);
    expect("the number of lit dots", dots, cycles - (POINTS - 2)); /* where two vectors meet a dot is written twice */
    printf("drawn: %d vectors, %u cycles, %u dots lit\n", POINTS - 1, cycles, dots);

    unsigned first = status(&c), second = status(&c);
    expect("STATUS after the curve", first, 0xC5); /* no pen sequence, ready, ready's flag, a flag */
    expect("STATUS read again", second, 0x05);     /* reading clears the flags */
    printf("STATUS: %02X, read again %02X\n", first, second);

    static uint8_t file[GDP_EF9366_PBM_BYTES];
    gdp_pbm_answer written = gdp_write_pbm(GDP_EF9366, c.picture, GDP_EF9366_BYTES, file, sizeof file);
    expect("the refusal number of the file", written.number, GDP_ACCEPTED);
    if (argc > 1)
        keep(argv[1], file, written.value);
    printf("as plain PBM: %u bytes\n", (unsigned)written.value);

    /* From the same start, or ties fall otherwise and dots stay. */
    move(&c, start.x, start.y);
    put(&c, GDP_CTRL1, ERASER);
    expect("the eraser's number of cycles", curve(&c), cycles);
    expect("the number of dots left", lit(&c), 0);
    printf("taken away: %u cycles, the picture is dark again\n", cycles);

    gdp_pbm_answer read = gdp_read_pbm(GDP_EF9366, file, sizeof file, c.picture, GDP_EF9366_BYTES);
    expect("the refusal number of reading the file", read.number, GDP_ACCEPTED);
    expect("the number of dots read back", lit(&c), dots);
    printf("read back: %u dots lit\n", dots);
    free(c.picture);
    free(c.table);
    return 0;
}
