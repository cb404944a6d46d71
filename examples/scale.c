/* A lesson in letters: draws a forecast beside a vertical scale, whose numbers are slanted and whose title is slanted
   and runs upwards, under a straight heading and over straight hours; writes the picture as a plain PBM file, and takes
   everything away again. With a name, scale scale.pbm, it keeps the file under it. tools/letters makes letters.h of
   examples/letters.txt, and README.md says how to build all. Where something is not as it should be it says so and ends
   with status 1. */
#include "gdp.h"
#include "letters.h"

#include <stdio.h>
#include <stdlib.h>
#include <string.h>

enum { PEN = 0x03, ERASER = 0x01 };                    /* CTRL1: down, and bit 1 says which of the two */
enum { SOLID = 0x0, DOTTED = 0x1 };                    /* CTRL2 for vectors: bits 0 and 1, the line type */
enum { STRAIGHT = 0x0, SLANTED = 0x4, UPWARDS = 0x8 }; /* CTRL2 for letters: bit 2, tilt, and bit 3, turned */
enum { TEXT = 0x22, NUMBER = 0x32 };                   /* CSIZE: P 2 or 3, Q 2; slanted digits read better when wide */
enum { LEFT = 104, FOOT = 28 };                        /* where the two axes meet */
enum { MOST = 10, STEP = 20 };                         /* mg/l on the scale, and dots for each */
enum { HOURS = 24, HOUR = 16 };                        /* hours, and dots for each */

/* Sulphide over a day, hour by hour, in tenths of mg/l. */
static const uint8_t forecast[HOURS + 1] = {
    12, 12, 13, 16, 24, 39, 59, 78, 86, 80, 63, 44, 30, 22, 19, 20, 25, 33, 42, 49, 52, 49, 41, 31, 22,
};

/* The library keeps nothing between calls: this is the whole card, and the write cycles it has used. */
typedef struct {
    gdp_state state;
    uint8_t *picture;
    unsigned cycles;
} card;

static void expect(const char *what, unsigned found, unsigned wanted) {
    if (found == wanted)
        return;
    fprintf(stderr, "scale.c: %s is %u and should be %u.\n", what, found, wanted);
    exit(1);
}

/* Goes on with an answer's state, if the call was accepted. */
static unsigned taken(card *c, gdp_answer answer, const char *call) {
    expect(call, answer.number, GDP_ACCEPTED);
    c->state = answer.state;
    return answer.value;
}

static void put(card *c, uint8_t address, unsigned value) {
    taken(c, gdp_write(c->state, address, (uint8_t)value), "the refusal number of a write");
}

static void move(card *c, unsigned x, unsigned y) {
    put(c, GDP_X_UPPER, x >> 8);
    put(c, GDP_X_LOWER, x & 255);
    put(c, GDP_Y_UPPER, y >> 8);
    put(c, GDP_Y_LOWER, y & 255);
}

/* A command, run to its end. Answers the write cycles used. */
static unsigned run(card *c, unsigned command) {
    put(c, GDP_CMD, command);
    gdp_answer granted = gdp_grant(c->state, 65535, c->picture, GDP_EF9366_BYTES, letters, sizeof letters);
    unsigned cycles = taken(c, granted, "the refusal number of a grant");
    c->cycles += cycles;
    return cycles;
}

/* From where the card stands: bit 1 of the command says that X falls, bit 2 that Y does. */
static void draw_vector(card *c, int dx, int dy) {
    put(c, GDP_DELTAX, (unsigned)abs(dx));
    put(c, GDP_DELTAY, (unsigned)abs(dy));
    run(c, 0x11 | (dx < 0 ? 2u : 0) | (dy < 0 ? 4u : 0));
}

/* A line to the right or upwards, of any length: a delta holds 255 at most, and with parts of 240 the dots of a dotted
   line, two lit and two not, go on from part to part. */
static void draw_line(card *c, unsigned x, unsigned y, unsigned type, int dx, int dy) {
    put(c, GDP_CTRL2, type);
    move(c, x, y);
    while (dx > 0 || dy > 0) {
        int part_x = dx < 240 ? dx : 240, part_y = dy < 240 ? dy : 240;
        draw_vector(c, part_x, part_y);
        dx -= part_x;
        dy -= part_y;
    }
}

/* Half of CSIZE as a scale: 0 means 16. */
static unsigned scale(unsigned half) {
    return half ? half : 16;
}

/* A line of text. Its first letter has its lower left corner at (x, y), or its lower right one where the text runs
   upwards. However the letters lie, each takes 48 * P * Q cycles and the next one starts 6 * P further; slanted, its
   top row leans 8 * Q - 1 dots forward. X and Y have 12 bits. */
static void draw_text(card *c, unsigned x, unsigned y, unsigned csize, unsigned lie, const char *text) {
    unsigned p = scale(csize >> 4), q = scale(csize & 15), length = 6 * p * (unsigned)strlen(text);
    put(c, GDP_CTRL2, lie);
    put(c, GDP_CSIZE, csize);
    move(c, x, y);
    for (; *text; text++) {
        unsigned code = (unsigned char)*text;
        expect("whether a character has a glyph", code >= 0x20 && code <= 0x7F, 1); /* else it is another command */
        expect("a character's number of cycles", run(c, code), 48 * p * q);
    }
    expect("X behind a text", c->state.x, lie & UPWARDS ? x : (x + length) % 4096);
    expect("Y behind a text", c->state.y, lie & UPWARDS ? (y + length) % 4096 : y);
}

/* A mark of the scale: at an even number a longer one, with the number beside it and a line of the grid. */
static void draw_mark(card *c, unsigned level) {
    unsigned y = FOOT + level * STEP;
    if (level % 2) {
        draw_line(c, LEFT - 5, y, SOLID, 5, 0);
        return;
    }
    char number[12];
    snprintf(number, sizeof number, "%2u", level);
    draw_line(c, LEFT - 9, y, SOLID, 9, 0);
    draw_line(c, LEFT, y, DOTTED, HOURS * HOUR, 0);
    draw_text(c, LEFT - 62, y - 8, NUMBER, SLANTED, number);
}

static void draw_scale(card *c) {
    draw_line(c, LEFT, FOOT, SOLID, 0, MOST * STEP);
    for (unsigned level = 0; level <= MOST; level++)
        draw_mark(c, level);
    draw_text(c, 32, 38, TEXT, SLANTED | UPWARDS, "Sulphide, mg/l");
}

static void draw_hours(card *c) {
    draw_line(c, LEFT, FOOT, SOLID, HOURS * HOUR, 0);
    for (unsigned hour = 0; hour <= HOURS; hour += 6) {
        unsigned x = LEFT + hour * HOUR;
        char number[12];
        unsigned signs = (unsigned)snprintf(number, sizeof number, "%u", hour);
        draw_line(c, x, FOOT - 5, SOLID, 0, 5);
        draw_text(c, x - 6 * signs + 1, FOOT - 23, TEXT, STRAIGHT, number);
    }
}

/* One vector from hour to hour. */
static void draw_curve(card *c) {
    put(c, GDP_CTRL2, SOLID);
    move(c, LEFT, FOOT + forecast[0] * STEP / 10);
    for (int hour = 1; hour <= HOURS; hour++)
        draw_vector(c, HOUR, forecast[hour] * STEP / 10 - forecast[hour - 1] * STEP / 10);
}

/* The whole picture, with the pen or with the eraser. Answers the write cycles used. */
static unsigned draw_panel(card *c, unsigned tool) {
    c->cycles = 0;
    put(c, GDP_CTRL1, tool);
    draw_text(c, LEFT, 237, TEXT, STRAIGHT, "Forecast for the next 24 hours");
    draw_scale(c);
    draw_hours(c);
    draw_curve(c);
    return c->cycles;
}

static unsigned lit(const card *c) {
    unsigned dots = 0;
    for (unsigned i = 0; i < 8 * GDP_EF9366_BYTES; i++)
        dots += c->picture[i / 8] >> i % 8 & 1;
    return dots;
}

static void keep(const char *name, const uint8_t *file, size_t length) {
    FILE *out = fopen(name, "wb");
    if (out && fwrite(file, 1, length, out) == length && fclose(out) == 0)
        return;
    fprintf(stderr, "scale.c: the picture could not be written to %s.\n", name);
    exit(1);
}

int main(int argc, char **argv) {
    card c = {.picture = calloc(GDP_EF9366_BYTES, 1)};
    if (!c.picture) {
        fprintf(stderr, "scale.c: there is no memory for the picture.\n");
        return 1;
    }
    taken(&c, gdp_fresh(GDP_EF9366), "the refusal number of a fresh state");

    unsigned cycles = draw_panel(&c, PEN);
    printf("drawn: %u cycles, %u dots lit\n", cycles, lit(&c));

    static uint8_t file[GDP_EF9366_PBM_BYTES];
    gdp_pbm_answer written = gdp_write_pbm(GDP_EF9366, c.picture, GDP_EF9366_BYTES, file, sizeof file);
    expect("the refusal number of the file", written.number, GDP_ACCEPTED);
    if (argc > 1)
        keep(argv[1], file, written.value);
    printf("as plain PBM: %u bytes\n", (unsigned)written.value);

    expect("the eraser's number of cycles", draw_panel(&c, ERASER), cycles);
    expect("the number of dots left", lit(&c), 0);
    printf("taken away: %u cycles, the picture is dark again\n", cycles);
    free(c.picture);
    return 0;
}
