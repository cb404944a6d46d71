/* A host's walk through each clear, 04, 06, 07 and 0C, in each format, through include/gdp.h. With FMAT high a clear
   ends with the second frame that a fall of VB after the command begins, else with the first. Held after each level:
   the picture, byte for byte; ready in STATUS and its flag; the bits of the clear in the state; that meanwhile a grant
   uses no cycle and a write is refused. And bit 7 of modes is not looked at where it is not in use, and comes back as
   0. What answers otherwise is told, and the exit status is then 1. tools/hosts runs it. */
#include "judge.h"

/* The bits of modes. */
enum { CLEAR = 2 << 3, IS_0C = 1 << 5, OPEN = 1 << 6, FIRST_OVER = 1 << 7 };
/* CTRL1: the pen, and the mask of ready's flag. */
enum { PEN = 1 << 1, READY_MASK = 1 << 6 };
/* STATUS: VB, ready and its flag; all flags, and that there is one. */
enum { VB = 1 << 1, READY = 1 << 2, READY_FLAG = 1 << 6, FLAGS = 0xF << 4 };

static const struct {
    size_t bytes;
    const char *from_low, *from_high; /* the levels that end a clear, by VB's level at the command */
} formats[3] = {
    {GDP_EF9366_BYTES, "101", "01"},
    {GDP_FMAT_HIGH_BYTES, "10101", "0101"},
    {GDP_FMAT_LOW_BYTES, "101", "01"},
};

typedef struct {
    unsigned format;
    uint8_t *picture;
    gdp_state state;
    uint8_t left_over; /* a bit of modes that is not in use, and that each call is handed */
} walk;

static gdp_state handed(const walk *w) {
    gdp_state s = w->state;
    s.modes |= w->left_over;
    return s;
}

static void accepted(walk *w, const char *call, gdp_answer a) {
    judge(a.value == 0 && !(a.state.modes & w->left_over), call, a.number, GDP_ACCEPTED);
    w->state = a.state;
}

static void put(walk *w, unsigned address, unsigned value) {
    accepted(w, "gdp_write", gdp_write(handed(w), (uint8_t)address, (uint8_t)value));
}

static void set_vb(walk *w, unsigned level) {
    accepted(w, "gdp_set_vb", gdp_set_vb(handed(w), (uint8_t)level, w->picture, formats[w->format].bytes));
}

static int is_filled(const walk *w, uint8_t byte) {
    for (size_t i = 0; i < formats[w->format].bytes; i++)
        if (w->picture[i] != byte)
            return 0;
    return 1;
}

/* The picture is as it was, and ready low; nothing that a host does meanwhile changes that. */
static void waits(walk *w, unsigned modes, unsigned vb) {
    static uint8_t table[GDP_TABLE_BYTES];
    size_t bytes = formats[w->format].bytes;
    gdp_answer status = gdp_read(handed(w), GDP_STATUS), refused = gdp_write(handed(w), GDP_CMD, 0x04);
    unsigned shown = status.value & (VB | READY | FLAGS);
    judge(shown == (vb ? VB : 0), "gdp_read while a clear runs", status.number, GDP_ACCEPTED);
    judge(refused.state.modes == handed(w).modes, "gdp_write while a clear runs", refused.number, GDP_BUSY);
    accepted(w, "gdp_grant while a clear runs", gdp_grant(handed(w), 65535, w->picture, bytes, table, sizeof table));
    accepted(w, "gdp_lpck while a clear runs", gdp_lpck(handed(w), 10, 20));
    set_vb(w, vb ? 255 : 0); /* the present level */
    judge(as_lent(w->picture, 0, bytes) && w->state.modes == modes, "gdp_set_vb before a clear's end", 0, 0);
}

/* The picture is filled, all of it, and ready has risen. */
static void is_over(walk *w, uint8_t filled, unsigned flag) {
    gdp_answer status = gdp_read(handed(w), GDP_STATUS);
    unsigned shown = status.value & (VB | READY | READY_FLAG);
    judge(shown == (VB | READY | flag), "gdp_read after a clear", status.number, GDP_ACCEPTED);
    judge(is_filled(w, filled) && w->state.modes == w->format, "gdp_set_vb at a clear's end", 0, 0);
}

/* The bits of a running clear after the next level. */
static unsigned after(unsigned modes, unsigned level) {
    if (!level)
        return modes | OPEN;
    return modes & OPEN ? (modes & ~(unsigned)OPEN) | FIRST_OVER : modes;
}

static void clear(unsigned format, unsigned code, unsigned pen, unsigned vb, uint8_t left_over) {
    const char *levels = vb ? formats[format].from_high : formats[format].from_low;
    walk w = {format, lent(formats[format].bytes), gdp_fresh((uint8_t)format).state, left_over};
    put(&w, GDP_CTRL1, pen | READY_MASK);
    set_vb(&w, vb);
    put(&w, GDP_CMD, code);
    unsigned modes = format | CLEAR | (code == 0x0C ? IS_0C : 0);
    if (format == GDP_FMAT_HIGH)
        w.left_over = 0; /* bit 7 is in use while the clear runs */
    waits(&w, modes, vb);
    for (; levels[1]; levels++) {
        unsigned level = (unsigned)(*levels - '0');
        modes = after(modes, level);
        set_vb(&w, level);
        waits(&w, modes, level);
    }
    set_vb(&w, 1);
    is_over(&w, code == 0x0C && pen ? 0xFF : 0x00, code == 0x07 ? 0 : READY_FLAG); /* 07 clears the mask */
    free(w.picture);
}

int main(void) {
    static const unsigned codes[] = {0x04, 0x06, 0x07, 0x0C};
    for (unsigned f = 0; f < 3; f++)
        for (unsigned i = 0; i < 4; i++)
            for (unsigned pen = 0; pen <= PEN; pen += PEN)
                for (unsigned vb = 0; vb < 2; vb++) {
                    clear(f, codes[i], pen, vb, 0);
                    clear(f, codes[i], pen, vb, FIRST_OVER);
                }
    return judged();
}
