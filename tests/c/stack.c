/* The stack that each call of the library takes at most: the room below the caller is painted, the call made, and the
   lowest byte that it wrote looked up. Counted from the caller's stack pointer, so arguments and return address are in
   it, and the answer, which lies in the caller's own frame, is not. Prints a line for each call; tools/size runs it.
   The inputs reach each branch that a call can take: every command in every format, line types, tilt and turned,
   characters of two sizes, cyclic or not, all levels and frames, files with and without white space, and refusals; and
   characters straight, slanted, upwards and slanted upwards, of four sizes, whole and in part, inside the window, cut by
   each of its edges and outside. */
#include "gdp.h"

#include <stdio.h>
#include <stdlib.h>
#include <string.h>

enum { ROOM = 1024 };
enum { FRESH, WRITE, READ, GRANT, SET_VB, LPCK, ADDRESS, WRITE_PBM, READ_PBM, CALLS };
static const char *const names[CALLS] = {"gdp_fresh", "gdp_write",   "gdp_read",      "gdp_grant",   "gdp_set_vb",
                                         "gdp_lpck",  "gdp_address", "gdp_write_pbm", "gdp_read_pbm"};
static size_t deepest[CALLS];
static unsigned long made[CALLS];
static uint8_t picture[GDP_FMAT_HIGH_BYTES], table[GDP_TABLE_BYTES], file[4 * GDP_FMAT_HIGH_PBM_BYTES];
static size_t length;

static inline uintptr_t stack_pointer(void) {
    uintptr_t at;
#if defined __x86_64__
    __asm__ volatile("mov %%rsp, %0" : "=r"(at));
#elif defined __aarch64__
    __asm__ volatile("mov %0, sp" : "=r"(at));
#else
#error "say here how the stack pointer is read"
#endif
    return at;
}

/* Paints the room below its own stack pointer, where nothing of its own lies, and makes the call there. */
__attribute__((noinline)) static gdp_state measured(uint64_t colour, int call, gdp_state s, unsigned first,
                                                    unsigned second) {
    gdp_answer a = {0};
    volatile uint64_t *room = (volatile uint64_t *)(stack_pointer() - ROOM);
    for (size_t i = 0; i < ROOM / 8; i++)
        room[i] = colour;
    switch (call) {
    case FRESH:
        a = gdp_fresh((uint8_t)first);
        break;
    case WRITE:
        a = gdp_write(s, (uint8_t)first, (uint8_t)second);
        break;
    case READ:
        a = gdp_read(s, (uint8_t)first);
        break;
    case GRANT:
        a = gdp_grant(s, (uint16_t)first, picture, length, table, second);
        break;
    case SET_VB:
        a = gdp_set_vb(s, (uint8_t)first, picture, second);
        break;
    case LPCK:
        a = gdp_lpck(s, (uint16_t)first, (uint16_t)second);
        break;
    case ADDRESS:
        a.number = gdp_address(s).number;
        a.state = s;
        break;
    case WRITE_PBM:
        a.number = gdp_write_pbm((uint8_t)first, picture, length, file, second).number;
        break;
    default:
        a.number = gdp_read_pbm((uint8_t)first, file, second, picture, length).number;
    }
    size_t below = 0;
    while (below < ROOM && ((volatile uint8_t *)room)[below] == (uint8_t)colour)
        below++;
    if (ROOM - below > deepest[call])
        deepest[call] = ROOM - below;
    made[call]++;
    return a.state;
}

/* A byte that the call wrote in the paint's own colour is found by the other colour. */
static gdp_state call(int which, gdp_state s, unsigned first, unsigned second) {
    measured(0xA5A5A5A5A5A5A5A5, which, s, first, second);
    return measured(0x5A5A5A5A5A5A5A5A, which, s, first, second);
}

/* All calls from one state. */
static void from(gdp_state s) {
    for (unsigned a = 0; a < 16; a++)
        call(READ, s, a, 0);
    for (unsigned a = 1; a < 16; a++)
        call(WRITE, s, a, 0xFF);
    static const unsigned cycles[] = {0, 1, 7, 65535};
    for (unsigned i = 0; i < 4; i++)
        call(GRANT, s, cycles[i], sizeof table);
    call(GRANT, s, 1, 0);
    call(SET_VB, s, 0, length);
    call(SET_VB, s, 1, length);
    call(SET_VB, s, 1, 0);
    call(LPCK, s, 10, 20);
    call(LPCK, s, 64, 256);
    call(ADDRESS, s, 0, 0);
}

/* A command, and what can follow it: part of its cycles, or its frames, of which a clear may have two. */
static void commanded(gdp_state s, unsigned code) {
    s = call(WRITE, s, GDP_CMD, code);
    from(s);
    from(call(GRANT, s, 3, sizeof table));
    for (unsigned frame = 0; frame < 2; frame++) {
        s = call(SET_VB, s, 1, length);
        s = call(SET_VB, s, 0, length);
        from(s);
    }
}

static void format(unsigned number, size_t bytes) {
    static const unsigned ctrl1[] = {0x00, 0x73, 0x7B}; /* up; down with all flags; the same on a cyclic screen */
    static const unsigned sizes[] = {0x11, 0x32};
    length = bytes;
    gdp_state fresh = call(FRESH, (gdp_state){0}, number, 0);
    for (unsigned i = 0; i < 3; i++)
        for (unsigned ctrl2 = 0; ctrl2 < 16; ctrl2 += i == 1 ? 1 : 8) /* line type, tilt, turned; else only turned */
            for (unsigned j = 0; j < 2; j++)
                for (unsigned code = 0; code < 256; code++) {
                    gdp_state s = fresh;
                    s.ctrl1 = (uint8_t)ctrl1[i];
                    s.ctrl2 = (uint8_t)ctrl2;
                    s.csize = (uint8_t)sizes[j];
                    s.deltax = 200;
                    s.deltay = 77;
                    s.x = 4000;
                    s.y = 250;
                    commanded(s, code);
                }
}

/* Some of a character's cycles from wherever it stands, and the rest. */
static void granted(gdp_state s) {
    static const unsigned cycles[] = {1, 7, 8, 60, 300, 65535};
    for (unsigned i = 0; i < sizeof cycles / sizeof *cycles; i++) {
        gdp_state part = call(GRANT, s, cycles[i], sizeof table);
        call(GRANT, part, 50, sizeof table);
        call(GRANT, part, 65535, sizeof table);
    }
}

/* A character and both blocks in each way that they can lie, from each place. */
static void characters(unsigned number, size_t bytes) {
    static const unsigned codes[] = {0x0A, 0x0B, 0x41}, sizes[] = {0x11, 0x32, 0x14, 0x00};
    static const unsigned ctrl1[] = {0x03, 0x01, 0x0B}; /* pen, eraser, cyclic screen; all down */
    const uint16_t across = number == GDP_FMAT_LOW ? 256 : 512, up = number == GDP_FMAT_HIGH ? 512 : 256;
    const uint16_t xs[] = {0, 3, 130, (uint16_t)(across - 5), 4090}, ys[] = {0, 3, 130, (uint16_t)(up - 5), 4090};
    length = bytes;
    gdp_state s = gdp_fresh((uint8_t)number).state;
    for (unsigned place = 0; place < 25; place++)
        for (unsigned way = 0; way < 16; way += 4) /* CTRL2: tilt, turned */
            for (unsigned i = 0; i < 4 * 3 * 3; i++) {
                s.x = xs[place % 5];
                s.y = ys[place / 5];
                s.ctrl1 = (uint8_t)ctrl1[i / 12];
                s.ctrl2 = (uint8_t)way;
                s.csize = (uint8_t)sizes[i % 4];
                granted(call(WRITE, s, GDP_CMD, codes[i / 4 % 3]));
            }
}

/* Reads a file of this beginning and of dots with something between; whole, cut, and as one of another format. */
static void reading(unsigned number, const char *head, const char *between) {
    size_t end = strlen(head), gap = strlen(between);
    memcpy(file, head, end);
    for (size_t i = 0; i < 8 * length; i++) {
        file[end++] = (uint8_t)('0' + i / 3 % 2);
        memcpy(file + end, between, gap);
        end += gap;
    }
    const size_t lengths[] = {0, 2, 6, 8, strlen(head), end / 2, end};
    for (unsigned i = 0; i < sizeof lengths / sizeof *lengths; i++)
        call(READ_PBM, (gdp_state){0}, number, (unsigned)lengths[i]);
    call(READ_PBM, (gdp_state){0}, (number + 1) % 3, (unsigned)end);
    call(READ_PBM, (gdp_state){0}, 3, (unsigned)end);
}

static void files(unsigned number, size_t bytes, const char *size) {
    static const char *const between[] = {"", " ", "\r\n", "#\n"};
    char head[64];
    length = bytes;
    for (unsigned i = 0; i < 4; i++) {
        snprintf(head, sizeof head, "P1%s\n%s\n", i % 2 ? " # a comment" : "", size);
        reading(number, head, between[i]);
        snprintf(head, sizeof head, "P1\n000%s\nx", size);
        reading(number, head, between[i]);
    }
    static const unsigned buffers[] = {0, 11, sizeof file};
    for (unsigned i = 0; i < 3; i++)
        for (unsigned f = 0; f < 4; f++)
            call(WRITE_PBM, (gdp_state){0}, f, buffers[i]);
}

int main(void) {
    gdp_state none;
    memset(&none, 255, sizeof none);
    memset(table, 0x55, sizeof table);
    for (unsigned f = 3; f < 256; f++)
        call(FRESH, none, f, 0);
    from(none);
    format(GDP_EF9366, GDP_EF9366_BYTES);
    format(GDP_FMAT_HIGH, GDP_FMAT_HIGH_BYTES);
    format(GDP_FMAT_LOW, GDP_FMAT_LOW_BYTES);
    characters(GDP_EF9366, GDP_EF9366_BYTES);
    characters(GDP_FMAT_HIGH, GDP_FMAT_HIGH_BYTES);
    characters(GDP_FMAT_LOW, GDP_FMAT_LOW_BYTES);
    files(GDP_EF9366, GDP_EF9366_BYTES, "512 256");
    files(GDP_FMAT_HIGH, GDP_FMAT_HIGH_BYTES, "512 512");
    files(GDP_FMAT_LOW, GDP_FMAT_LOW_BYTES, "256 256");
    for (int i = 0; i < CALLS; i++) {
        if (deepest[i] == ROOM) {
            fprintf(stderr, "stack.c: %s goes below the paint: make ROOM larger.\n", names[i]);
            return 1;
        }
        printf("%-13s %5zu bytes at most in %lu calls\n", names[i], deepest[i], made[i]);
    }
    return 0;
}
