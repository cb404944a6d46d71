/* A character, 0A and 0B straight, slanted, upwards and slanted upwards, through include/gdp.h: in each format, inside
   the window, across its edges and where X and Y step around, on a cyclic screen and not, with the pen and with the
   eraser, whole and in part. Held after each grant: the cycles used; X, Y and the rest of the state; and the picture,
   byte for byte, against the dots that the printed formulas give, which are worked out here. The picture is lent in
   memory of exactly its length, so that a checker sees any step past the end, and with guard bytes on both sides, which
   show it where no checker runs. What answers otherwise is told, and the exit status is then 1. tools/hosts runs it. */
#include "judge.h"

enum { GUARD = 64, POSITIONS = 4096 };
enum { STEPS = 1 << 3 }; /* modes: a command that steps */
enum { DOWN = 1 << 0, PEN = 1 << 1, CYCLIC = 1 << 3 };
enum { TILT = 1 << 2, TURNED = 1 << 3 };

static const struct {
    unsigned width, height;
    size_t bytes;
} formats[3] = {
    {512, 256, GDP_EF9366_BYTES},
    {512, 512, GDP_FMAT_HIGH_BYTES},
    {256, 256, GDP_FMAT_LOW_BYTES},
};

/* A character as it is given, with the registers that say how it lies. */
typedef struct {
    unsigned format, code, csize, ctrl1, ctrl2, x, y;
} character;

typedef struct {
    unsigned x, y;
} place;

/* P is the upper half of CSIZE, Q the lower. */
static unsigned size(unsigned half) {
    return half ? half : 16;
}

/* v runs below it, u below the width. */
static unsigned lines(character c) {
    return (c.code == 0x0B ? 4 : 8) * size(c.csize & 15);
}

static unsigned width(character c) {
    return (c.code == 0x0B ? 4 : 6) * size(c.csize >> 4);
}

static int has_dot(character c, const uint8_t *table, unsigned u, unsigned v) {
    unsigned column = u / size(c.csize >> 4), row = v / size(c.csize & 15);
    if (c.code == 0x0B || column == 5)
        return c.code == 0x0B;
    return c.code == 0x0A || (table[5 * (c.code - 0x20) + column] >> row & 1);
}

/* (X + u, Y + v), slanted (X + u + v, Y + v); upwards (X - v, Y + u), slanted (X - v, Y + u + v). */
static place at(character c, unsigned u, unsigned v) {
    unsigned along = c.ctrl2 & TILT ? u + v : u;
    place p = {c.x + along, c.y + v};
    if (c.ctrl2 & TURNED)
        p = (place){c.x + POSITIONS - v, c.y + along};
    return (place){p.x % POSITIONS, p.y % POSITIONS};
}

/* Where X and Y stand after so many cycles: on the next dot's place, and at the end where the next character begins. */
static place after(character c, unsigned done) {
    unsigned n = lines(c);
    return done < width(c) * n ? at(c, done / n, done % n) : at(c, width(c), 0);
}

static void write_dot(character c, uint8_t *picture, place p) {
    unsigned across = formats[c.format].width, up = formats[c.format].height;
    if (!(c.ctrl1 & CYCLIC) && (p.x >= across || p.y >= up))
        return;
    uint8_t *byte = picture + p.y % up * (across / 8) + p.x % across / 8, bit = (uint8_t)(1 << p.x % 8);
    *byte = (uint8_t)(c.ctrl1 & PEN ? *byte | bit : *byte & ~bit);
}

static void write_cycles(character c, uint8_t *picture, const uint8_t *table, unsigned from, unsigned to) {
    for (unsigned i = from; i < to; i++)
        if (has_dot(c, table, i / lines(c), i % lines(c)))
            write_dot(c, picture, at(c, i / lines(c), i % lines(c)));
}

/* The picture that is lent and the one that is wanted, each between its guards; and the table. */
typedef struct {
    uint8_t *picture, *wanted, *table;
    size_t length, guard;
} memory;

static memory lend(size_t bytes, size_t guard) {
    size_t length = guard + bytes + guard;
    return (memory){lent(length), lent(length), lent(GDP_TABLE_BYTES), length, guard};
}

static void give_back(memory m) {
    free(m.picture);
    free(m.wanted);
    free(m.table);
}

static gdp_state put(gdp_state s, unsigned address, unsigned value) {
    gdp_answer a = gdp_write(s, (uint8_t)address, (uint8_t)value);
    judge(a.value == 0, "gdp_write", a.number, GDP_ACCEPTED);
    return a.state;
}

static gdp_state given(character c) {
    gdp_state s = gdp_fresh((uint8_t)c.format).state;
    s = put(put(put(s, GDP_CTRL1, c.ctrl1), GDP_CTRL2, c.ctrl2), GDP_CSIZE, c.csize);
    s = put(put(s, GDP_X_UPPER, c.x >> 8), GDP_X_LOWER, c.x & 255);
    s = put(put(s, GDP_Y_UPPER, c.y >> 8), GDP_Y_LOWER, c.y & 255);
    return put(s, GDP_CMD, c.code);
}

static int stands(character c, gdp_state s, unsigned done) {
    place p = after(c, done);
    int runs = done < width(c) * lines(c);
    int registers = s.ctrl1 == c.ctrl1 && s.ctrl2 == c.ctrl2 && s.csize == c.csize && s.signals == 0;
    int work = s.code == (runs ? c.code : 0) && s.done == (runs ? done : 0);
    return registers && work && s.modes == (c.format | (runs ? STEPS : 0)) && s.x == p.x && s.y == p.y;
}

/* From the command to the end, by portions. */
static void draw(memory m, character c, const unsigned portions[3]) {
    unsigned cycles = width(c) * lines(c), done = 0;
    size_t bytes = formats[c.format].bytes;
    gdp_state s = given(c);
    for (unsigned i = 0; i < 3; i++) {
        unsigned n = portions[i], used = n < cycles - done ? n : cycles - done;
        gdp_answer a = gdp_grant(s, (uint16_t)n, m.picture + m.guard, bytes, m.table, GDP_TABLE_BYTES);
        write_cycles(c, m.wanted + m.guard, m.table, done, done + used);
        done += used;
        s = a.state;
        int drawn = memcmp(m.picture, m.wanted, m.length) == 0 && as_lent(m.table, 0, GDP_TABLE_BYTES);
        judge(a.value == used && stands(c, s, done) && drawn, "gdp_grant", a.number, GDP_ACCEPTED);
    }
}

/* All four ways, with the pen, the eraser and the pen: in part and whole. */
static void lies(memory m, character c) {
    static const unsigned parts[] = {1, 60, 65535}, whole[] = {65535, 1, 0}, others[] = {0, 11, 65535};
    for (c.ctrl2 = 0; c.ctrl2 <= (TILT | TURNED); c.ctrl2 += TILT) {
        c.ctrl1 |= PEN;
        draw(m, c, parts);
        c.ctrl1 &= ~(unsigned)PEN;
        draw(m, c, others);
        c.ctrl1 |= PEN;
        draw(m, c, whole);
    }
}

/* In the middle; across each edge, and two at once; and from beyond 0. */
static void from_each_place(memory m, character c) {
    const unsigned right = formats[c.format].width - 4, top = formats[c.format].height - 3;
    const place places[] = {{150, 100}, {right, 100}, {150, top}, {2, 100}, {150, 4090}, {4093, top}, {right, 4095}};
    for (unsigned i = 0; i < sizeof places / sizeof *places; i++) {
        c.x = places[i].x;
        c.y = places[i].y;
        c.ctrl1 = DOWN;
        lies(m, c);
        c.ctrl1 = DOWN | CYCLIC;
        lies(m, c);
    }
}

int main(void) {
    static const unsigned codes[] = {0x41, 0x0A, 0x0B}, sizes[] = {0x11, 0x32, 0x40, 0x02};
    for (unsigned f = 0; f < 3; f++)
        for (size_t guard = 0; guard <= GUARD; guard += GUARD) {
            memory m = lend(formats[f].bytes, guard);
            for (unsigned i = 0; i < 3; i++)
                for (unsigned j = 0; j < 4; j++)
                    from_each_place(m, (character){.format = f, .code = codes[i], .csize = sizes[j]});
            give_back(m);
        }
    return judged();
}
