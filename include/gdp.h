/* The EF9365 / EF9366 for C11 and C++11: link with libgdp.a. `sh tools/archive` makes it for the processor at hand; for
   x86-64 and its System V calling convention it is what `rt lib` makes in crates/card, under that name (README.md).

   A call of the processor takes the state by value and hands back the next one; the two that write and read a picture
   as a file have nothing to do with it. The library keeps nothing, allocates nothing, has no variables of its own and
   needs only memset: it is reentrant, from several threads and from interrupts alike.

   Each memory belongs to the caller and is lent for the time of one call. One that is `const` is only read: the table,
   the picture that is written as a file, the file that is read. Any other may not be lent to two calls at once, nor
   overlap another memory of its call. A length is in bytes and is that of the memory lent: any length may be passed,
   and a wrong one is refused. A null pointer with length 0 is a memory of no bytes, and refused as such; a null pointer
   with another length, or a length past the memory's end, is the caller's fault. */
#ifndef GDP_H
#define GDP_H

#include <stddef.h>
#include <stdint.h>

/* The formats, for gdp_fresh and the two calls of plain PBM. */
enum {
    GDP_EF9366 = 0,    /* 512 by 256 dots */
    GDP_FMAT_HIGH = 1, /* EF9365, 512 by 512 */
    GDP_FMAT_LOW = 2   /* EF9365, 256 by 256 */
};

/* The bytes of a picture, and of a character table. Line 0 is the bottom one. Dot (X, Y) is bit X mod 8 (0 the lowest)
   of byte Y * (width / 8) + X / 8, and 1 is lit. The table has 96 glyphs from code 20 (hex), five bytes each, left
   column first, bit 0 the bottom row. */
enum {
    GDP_EF9366_BYTES = 16384,
    GDP_FMAT_HIGH_BYTES = 32768,
    GDP_FMAT_LOW_BYTES = 8192,
    GDP_TABLE_BYTES = 480
};

/* The bytes of a picture's file as gdp_write_pbm writes it. */
enum {
    GDP_EF9366_PBM_BYTES = 133131,
    GDP_FMAT_HIGH_PBM_BYTES = 266251,
    GDP_FMAT_LOW_PBM_BYTES = 66571
};

/* The registers' addresses. X and Y have their upper 4 bits at the first address and their lower 8 at the second. */
enum {
    GDP_STATUS = 0x0, /* read */
    GDP_CMD = 0x0,    /* write */
    GDP_CTRL1 = 0x1,
    GDP_CTRL2 = 0x2,
    GDP_CSIZE = 0x3,
    GDP_DELTAX = 0x5,
    GDP_DELTAY = 0x7,
    GDP_X_UPPER = 0x8,
    GDP_X_LOWER = 0x9,
    GDP_Y_UPPER = 0xA,
    GDP_Y_LOWER = 0xB,
    GDP_XLP = 0xC, /* read only */
    GDP_YLP = 0xD  /* read only */
};

/* Refusal numbers. Where several apply, the lowest is given. A refused call has value 0, and the state and each memory
   lent are as handed in. */
enum {
    GDP_ACCEPTED = 0,
    GDP_BAD_STATE = 1,    /* every call with a state: it cannot be one, see gdp_state; gdp_fresh: no such format */
    GDP_BAD_PICTURE = 2,  /* every call with a picture: it is not of the format's length; gdp_write_pbm, gdp_read_pbm:
                             or there is no such format */
    GDP_BAD_TABLE = 3,    /* gdp_grant, whatever runs: the table is not 480 bytes */
    GDP_BAD_ADDRESS = 4,  /* gdp_write, gdp_read: address 4, 6, E or F, or above 15 */
    GDP_READ_ONLY = 5,    /* gdp_write: to C or D */
    GDP_BUSY = 6,         /* gdp_write: to any other address while a command runs */
    GDP_TILTED = 7,       /* no call gives it: until characters were slanted, a character command while tilt is high */
    GDP_OFF_SCREEN = 8,   /* gdp_lpck: h above 63 or v above 255 */
    GDP_SHORT_BUFFER = 9, /* gdp_write_pbm: the buffer is shorter than the file */
    GDP_NO_PBM = 10,      /* gdp_read_pbm: no P1 at the start with white space behind it, or no two numbers after it */
    GDP_OTHER_SIZE = 11,  /* gdp_read_pbm: the numbers are not the format's width and height */
    GDP_BAD_DOTS = 12     /* gdp_read_pbm: a byte before the last dot is no dot or white space, or dots are missing */
};

/* The state. Make it by gdp_fresh and hand on what each call answers; it may be copied, kept and read freely.
   Refused with 1: x or y above 4,095; ctrl1 above 127; ctrl2 above 15; bit 1 of xlp high; a command that steps and takes
   no cycles, or has a done that is not below its cycles; VB high inside an open frame of a clear (either one, where it has
   two) or the pen; and a number that names no format, no kind of work or no pen sequence, for such bytes cannot be read as
   a state. What is not in use is not looked at: done and code where no command steps, the bits of a clear where none runs,
   the bits that are named so below. An accepted call hands it back as 0, a refusal as it came. */
typedef struct gdp_state {
    uint16_t x, y;    /* 12 bits each; while a command steps, the place of its next cycle */
    uint16_t done;    /* the cycles that the stepping command has used; else not in use */
    uint8_t ctrl1;    /* 7 bits: 0 down, 1 pen (else eraser), 2 fast writing, 3 cyclic screen; 4 to 6 let the rise of
                         pen end, VB and ready set its flag */
    uint8_t ctrl2;    /* 4 bits: 0 and 1 line type; characters and blocks: 2 tilted (slanted), 3 turned (they run
                         upwards) */
    uint8_t csize;    /* P in the upper half, Q in the lower; 0 means 16 */
    uint8_t deltax, deltay;
    uint8_t xlp, ylp; /* where the light pen was */
    uint8_t code;     /* the command that steps; else not in use */
    uint8_t modes;    /* bits 0-2 the format; 3-4 what runs: 0 nothing, 1 a command that steps, 2 a clear; 5 the clear
                         is 0C; 6 a frame of it is open; 7 with FMAT high, its first frame is over; else not in use */
    uint8_t signals;  /* bit 1 VB; 2-3 the pen sequence: 0 none, 1 waiting for its frame, 2 in it; flags, where STATUS
                         has them: 4 pen end, 5 VB, 6 ready; 0 and 7 not in use */
} gdp_state;

typedef struct gdp_answer {
    uint8_t number; /* the refusal number, or 0 */
    uint16_t value; /* gdp_read: the register; gdp_grant: the cycles used; else 0 */
    gdp_state state;
} gdp_answer;

typedef struct gdp_outputs {
    uint8_t number; /* the refusal number, or 0; refused, the outputs are 0 */
    uint8_t low;    /* DAD0 to 6 while CK is low, DAD0 the lowest bit */
    uint8_t high;   /* DAD0 to 6 while CK is high */
    uint8_t msl;    /* MSL0 to 3 */
} gdp_outputs;

typedef struct gdp_pbm_answer {
    uint8_t number; /* the refusal number, or 0 */
    uint32_t value; /* gdp_write_pbm: the bytes written; else 0 */
} gdp_pbm_answer;

#ifdef __cplusplus
#define GDP_HOLDS(fact) static_assert(fact, #fact)
extern "C" {
#else
#define GDP_HOLDS(fact) _Static_assert(fact, #fact)
#endif

/* A fresh state, idle, VB low; the picture that goes with it is the caller's to make dark. A format above 2 is refused,
   and the state handed back is one that every call refuses. */
gdp_answer gdp_fresh(uint8_t format);

/* Writes a register; at address 0 it is a command. A vector, a character, a block or 0F then waits for write cycles, a
   clear for its frames: one, or two with FMAT high. */
gdp_answer gdp_write(gdp_state state, uint8_t address, uint8_t value);

/* Reads a register. STATUS then has its flags cleared, and after XLP or YLP the lowest bit of XLP is 0. */
gdp_answer gdp_read(gdp_state state, uint8_t address);

/* Grants write cycles: one a dot or cell, and those not needed are left. 12,288 end any command that uses cycles. */
gdp_answer gdp_grant(gdp_state state, uint16_t cycles, uint8_t *picture, size_t picture_length, const uint8_t *table,
                     size_t table_length);

/* Sets VB: 0 is low, any other byte is high. A frame goes from a fall to the next rise. The rise that ends a clear
   changes the picture, all of it at once, and ready rises: with FMAT high that of the second frame begun by a fall
   after the command, else that of the first. Until then the picture is as it was. */
gdp_answer gdp_set_vb(gdp_state state, uint8_t level, uint8_t *picture, size_t picture_length);

/* Reports an LPCK edge at segment h and line v. */
gdp_answer gdp_lpck(gdp_state state, uint16_t h, uint16_t v);

/* The address outputs for the present X and Y. */
gdp_outputs gdp_address(gdp_state state);

/* Writes the picture as a plain PBM file, Netpbm's P1, which programs that show pictures open: the line P1, the line of
   width and height with a blank between, then the dots from the top line down and from left to right, 1 lit (which
   viewers show black) and 0 dark, 64 to a line with nothing between. A line feed ends each line, the last too. The file
   stands at the start of the buffer, and later bytes stay. */
gdp_pbm_answer gdp_write_pbm(uint8_t format, const uint8_t *picture, size_t picture_length, uint8_t *buffer,
                             size_t buffer_length);

/* Reads a plain PBM file into the picture, also one that another program wrote. Its first two bytes are P1. White space
   stands behind these, behind the width and behind the height, and may stand between any two dots: blanks, tabs, CR and
   LF, as many as there are, and comments, each from # to the next LF or to the file's end. A number is decimal digits as
   far as they go, any number of them, and zeros in front count for nothing. What follows the last dot is not looked at.
   Every dot is looked at before one is written: a fault in the last leaves the whole picture as it was. */
gdp_pbm_answer gdp_read_pbm(uint8_t format, const uint8_t *file, size_t file_length, uint8_t *picture,
                            size_t picture_length);

GDP_HOLDS(sizeof(gdp_state) == 16);
GDP_HOLDS(offsetof(gdp_state, x) == 0);
GDP_HOLDS(offsetof(gdp_state, y) == 2);
GDP_HOLDS(offsetof(gdp_state, done) == 4);
GDP_HOLDS(offsetof(gdp_state, ctrl1) == 6);
GDP_HOLDS(offsetof(gdp_state, ctrl2) == 7);
GDP_HOLDS(offsetof(gdp_state, csize) == 8);
GDP_HOLDS(offsetof(gdp_state, deltax) == 9);
GDP_HOLDS(offsetof(gdp_state, deltay) == 10);
GDP_HOLDS(offsetof(gdp_state, xlp) == 11);
GDP_HOLDS(offsetof(gdp_state, ylp) == 12);
GDP_HOLDS(offsetof(gdp_state, code) == 13);
GDP_HOLDS(offsetof(gdp_state, modes) == 14);
GDP_HOLDS(offsetof(gdp_state, signals) == 15);
GDP_HOLDS(sizeof(gdp_answer) == 20);
GDP_HOLDS(offsetof(gdp_answer, number) == 0);
GDP_HOLDS(offsetof(gdp_answer, value) == 2);
GDP_HOLDS(offsetof(gdp_answer, state) == 4);
GDP_HOLDS(sizeof(gdp_outputs) == 4);
GDP_HOLDS(offsetof(gdp_outputs, low) == 1);
GDP_HOLDS(offsetof(gdp_outputs, high) == 2);
GDP_HOLDS(offsetof(gdp_outputs, msl) == 3);
GDP_HOLDS(sizeof(gdp_pbm_answer) == 8);
GDP_HOLDS(offsetof(gdp_pbm_answer, number) == 0);
GDP_HOLDS(offsetof(gdp_pbm_answer, value) == 4);
#undef GDP_HOLDS

#ifdef __cplusplus
}
#endif
#endif
