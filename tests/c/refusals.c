/* Every refusal number, from every call that can give it, through include/gdp.h; the two calls of plain PBM have pbm.c.
   Held: the number is the lowest that applies; the value is 0, and state and lent memory are as handed in. Null pointers
   with length 0 are among the memories. No call gives GDP_TILTED, and tilt is no cause of 1: characters are accepted and
   run with it (slants.c has their dots). And what is not in use is not looked at: a state with left-overs is answered as
   the same without them, only that a refusal hands them back. What answers otherwise is told, and the exit status is
   then 1. tools/hosts runs it. */
#include "judge.h"

/* An accepted answer is held to its number alone: what it draws is tested elsewhere. */
static gdp_state answered(const char *call, gdp_state handed, gdp_answer a, int unchanged, unsigned wanted) {
    int kept = unchanged && a.value == 0 && memcmp(&a.state, &handed, sizeof handed) == 0;
    judge(wanted == GDP_ACCEPTED || kept, call, a.number, wanted);
    return a.state;
}

static gdp_state grant(gdp_state s, size_t length, size_t table_length, unsigned wanted) {
    uint8_t *picture = lent(length), *table = lent(table_length);
    gdp_answer a = gdp_grant(s, 65535, picture, length, table, table_length);
    int unchanged = as_lent(picture, 0, length) && as_lent(table, 0, table_length);
    free(picture);
    free(table);
    return answered("gdp_grant", s, a, unchanged, wanted);
}

static gdp_state set_vb(gdp_state s, uint8_t level, size_t length, unsigned wanted) {
    uint8_t *picture = lent(length);
    gdp_answer a = gdp_set_vb(s, level, picture, length);
    int unchanged = as_lent(picture, 0, length);
    free(picture);
    return answered("gdp_set_vb", s, a, unchanged, wanted);
}

static gdp_state put(gdp_state s, unsigned address, unsigned value, unsigned wanted) {
    return answered("gdp_write", s, gdp_write(s, (uint8_t)address, (uint8_t)value), 1, wanted);
}

static void lpck(gdp_state s, unsigned h, unsigned v, unsigned wanted) {
    answered("gdp_lpck", s, gdp_lpck(s, (uint16_t)h, (uint16_t)v), 1, wanted);
}

static void address(gdp_state s, unsigned wanted) {
    gdp_outputs o = gdp_address(s);
    judge(wanted == GDP_ACCEPTED || (o.low == 0 && o.high == 0 && o.msl == 0), "gdp_address", o.number, wanted);
}

/* Refusal 1 from every call, also where others apply. */
static void bad(gdp_state s) {
    for (unsigned a = 0; a < 256; a++) {
        put(s, a, 0x41, GDP_BAD_STATE);
        answered("gdp_read", s, gdp_read(s, (uint8_t)a), 1, GDP_BAD_STATE);
    }
    grant(s, 0, 0, GDP_BAD_STATE);
    grant(s, GDP_EF9366_BYTES, GDP_TABLE_BYTES, GDP_BAD_STATE);
    for (unsigned level = 0; level < 2; level++) {
        set_vb(s, (uint8_t)level, 0, GDP_BAD_STATE);
        set_vb(s, (uint8_t)level, GDP_EF9366_BYTES, GDP_BAD_STATE);
    }
    lpck(s, 0, 0, GDP_BAD_STATE);
    lpck(s, 64, 256, GDP_BAD_STATE);
    address(s, GDP_BAD_STATE);
}

/* The bits of modes, and of signals. */
enum { FORMAT = 7, STEPS = 1 << 3, CLEAR = 2 << 3, WORK = 3 << 3 };
enum { IS_0C = 1 << 5, CLEAR_OPEN = 1 << 6, FIRST_OVER = 1 << 7 };
enum { VB = 1 << 1, PEN_OPEN = 2 << 2, PEN = 3 << 2 };
/* CTRL2. */
enum { TILT = 1 << 2 };

/* The causes that gdp_state's comment lists, each by itself in a state that is else good. */
static void bad_states(gdp_state good) {
    uint8_t f = good.modes;
    gdp_state s;
#define WITH(change) (s = good, change, bad(s))
    WITH(s.x = 4096);
    WITH(s.y = 4096);
    WITH(s.ctrl1 = 128);
    WITH(s.ctrl2 = 16);
    WITH(s.xlp = 2);
    WITH((s.modes = f | STEPS, s.code = 0x05));
    WITH((s.modes = f | STEPS, s.code = 0x04));
    WITH((s.modes = f | STEPS, s.code = 0x0F, s.done = 1));
    WITH((s.modes = f | STEPS, s.code = 0x41, s.done = 48));
    WITH((s.modes = f | STEPS, s.code = 0x41, s.done = 48, s.ctrl2 = TILT));
    WITH((s.modes = f | STEPS, s.code = 0x0B, s.done = 16, s.ctrl2 = TILT));
    WITH((s.modes = f | CLEAR | CLEAR_OPEN, s.signals = VB));
    WITH((s.modes = f | CLEAR | CLEAR_OPEN | FIRST_OVER, s.signals = VB));
    WITH(s.signals = PEN_OPEN | VB);
    for (unsigned number = 3; number <= FORMAT; number++)
        WITH(s.modes = (uint8_t)number);
    WITH(s.modes |= WORK);
    WITH(s.signals |= PEN);
#undef WITH
}

/* Both answers are the same, but that a refusal hands back the state as it came, left-overs and all. */
static void alike(const char *call, gdp_answer clean, gdp_state left, gdp_answer found, int unchanged) {
    const gdp_state *state = clean.number ? &left : &clean.state;
    int same = found.value == clean.value && memcmp(&found.state, state, sizeof left) == 0;
    judge(same && unchanged, call, found.number, clean.number);
}

static void grants_alike(gdp_state clean, gdp_state left, uint16_t cycles, size_t length, size_t table_length) {
    uint8_t *picture = lent(length), *other = lent(length), *table = lent(table_length);
    gdp_answer a = gdp_grant(clean, cycles, picture, length, table, table_length);
    gdp_answer b = gdp_grant(left, cycles, other, length, table, table_length);
    alike("gdp_grant with left-overs", a, left, b, length == 0 || memcmp(picture, other, length) == 0);
    free(picture);
    free(other);
    free(table);
}

static void blanks_alike(gdp_state clean, gdp_state left, uint8_t level, size_t length) {
    uint8_t *picture = lent(length), *other = lent(length);
    gdp_answer a = gdp_set_vb(clean, level, picture, length), b = gdp_set_vb(left, level, other, length);
    alike("gdp_set_vb with left-overs", a, left, b, length == 0 || memcmp(picture, other, length) == 0);
    free(picture);
    free(other);
}

/* Every call, with a state and with the same and something left over. */
static void left_over(gdp_state clean, gdp_state left, size_t right) {
    for (unsigned a = 0; a < 18; a++) {
        for (unsigned v = 0; v < 256; v += a ? 85 : 1)
            alike("gdp_write with left-overs", gdp_write(clean, (uint8_t)a, (uint8_t)v), left,
                  gdp_write(left, (uint8_t)a, (uint8_t)v), 1);
        alike("gdp_read with left-overs", gdp_read(clean, (uint8_t)a), left, gdp_read(left, (uint8_t)a), 1);
    }
    grants_alike(clean, left, 0, right, GDP_TABLE_BYTES);
    grants_alike(clean, left, 7, right, GDP_TABLE_BYTES);
    grants_alike(clean, left, 65535, right, GDP_TABLE_BYTES);
    grants_alike(clean, left, 65535, right, 0);
    grants_alike(clean, left, 65535, right + 1, GDP_TABLE_BYTES);
    blanks_alike(clean, left, 0, right);
    blanks_alike(clean, left, 1, right);
    blanks_alike(clean, left, 1, 0);
    alike("gdp_lpck with left-overs", gdp_lpck(clean, 10, 20), left, gdp_lpck(left, 10, 20), 1);
    alike("gdp_lpck with left-overs", gdp_lpck(clean, 64, 20), left, gdp_lpck(left, 64, 20), 1);
    gdp_outputs o = gdp_address(clean), p = gdp_address(left);
    judge(memcmp(&o, &p, sizeof o) == 0, "gdp_address with left-overs", p.number, GDP_ACCEPTED);
}

/* What is not in use in a state where nothing runs, a command steps, or a clear runs, each by itself and together. */
static void left_overs(gdp_state clean, size_t right) {
    int steps = (clean.modes & WORK) == STEPS, clears = (clean.modes & WORK) == CLEAR;
    int two_frames = clears && (clean.modes & FORMAT) == GDP_FMAT_HIGH;
    uint8_t modes = two_frames ? 0 : clears ? FIRST_OVER : FIRST_OVER | IS_0C | CLEAR_OPEN, signals = 1 | 1 << 7;
    gdp_state s;
#define WITH(change) (s = clean, change, left_over(clean, s, right))
    for (unsigned bit = 1; bit < 256; bit *= 2) {
        if (bit & modes)
            WITH(s.modes |= (uint8_t)bit);
        if (bit & signals)
            WITH(s.signals |= (uint8_t)bit);
    }
    if (!steps) {
        WITH(s.code = 0x11);
        WITH(s.code = 0x05);
        WITH(s.done = 1);
        WITH(s.done = 65535);
        WITH((s.code = 255, s.done = 65535, s.modes |= modes, s.signals |= signals));
    }
    WITH((s.modes |= modes, s.signals |= signals));
#undef WITH
}

/* 4 to 6, for every address and every byte. */
static void writes(gdp_state s, int busy) {
    for (unsigned a = 0; a < 256; a++)
        for (unsigned v = 0; v < 256; v++)
            put(s, a, v,
                a == 4 || a == 6 || a >= 0xE   ? GDP_BAD_ADDRESS
                : a == GDP_XLP || a == GDP_YLP ? GDP_READ_ONLY
                : busy                         ? GDP_BUSY
                                               : GDP_ACCEPTED);
}

static void reads(gdp_state s) {
    for (unsigned a = 0; a < 256; a++) {
        unsigned wanted = a == 4 || a == 6 || a >= 0xE ? GDP_BAD_ADDRESS : GDP_ACCEPTED;
        answered("gdp_read", s, gdp_read(s, (uint8_t)a), 1, wanted);
    }
}

static void edges(gdp_state s) {
    static const unsigned numbers[] = {0, 63, 64, 255, 256, 319, 65535};
    for (unsigned i = 0; i < 7; i++)
        for (unsigned j = 0; j < 7; j++)
            lpck(s, numbers[i], numbers[j], numbers[i] > 63 || numbers[j] > 255 ? GDP_OFF_SCREEN : GDP_ACCEPTED);
}

/* 2 before 3, whatever runs. */
static void memories(gdp_state s, size_t right) {
    const size_t lengths[] = {0, 1, right - 1, right, right + 1, 8192, 16384, 32768, 480};
    const size_t tables[] = {0, 1, 479, 480, 481, 8192};
    for (unsigned i = 0; i < 9; i++) {
        unsigned picture = lengths[i] == right ? GDP_ACCEPTED : GDP_BAD_PICTURE;
        set_vb(s, 0, lengths[i], picture);
        set_vb(s, 255, lengths[i], picture);
        for (unsigned j = 0; j < 6; j++)
            grant(s, lengths[i], tables[j], picture ? picture : tables[j] == 480 ? GDP_ACCEPTED : GDP_BAD_TABLE);
    }
}

static void good(gdp_state s, size_t right, int busy) {
    writes(s, busy);
    reads(s);
    edges(s);
    memories(s, right);
    address(s, GDP_ACCEPTED);
}

int main(void) {
    static const size_t lengths[] = {GDP_EF9366_BYTES, GDP_FMAT_HIGH_BYTES, GDP_FMAT_LOW_BYTES};
    gdp_state none;
    memset(&none, 255, sizeof none);
    for (unsigned f = 3; f < 256; f++)
        answered("gdp_fresh", none, gdp_fresh((uint8_t)f), 1, GDP_BAD_STATE);
    bad(none);
    for (unsigned f = 0; f < 3; f++) {
        gdp_answer fresh = gdp_fresh((uint8_t)f);
        judge(fresh.value == 0, "gdp_fresh", fresh.number, GDP_ACCEPTED);
        gdp_state idle = fresh.state;
        gdp_state letter = put(idle, GDP_CMD, 0x41, GDP_ACCEPTED);
        gdp_state clear = put(idle, GDP_CMD, 0x04, GDP_ACCEPTED);
        gdp_state tilted = put(idle, GDP_CTRL2, TILT, GDP_ACCEPTED);
        gdp_state slanted = put(tilted, GDP_CMD, 0x41, GDP_ACCEPTED);
        good(idle, lengths[f], 0);
        good(letter, lengths[f], 1);
        good(clear, lengths[f], 1);
        good(tilted, lengths[f], 0);
        good(slanted, lengths[f], 1);
        good(put(tilted, GDP_CMD, 0x0A, GDP_ACCEPTED), lengths[f], 1);
        good(put(tilted, GDP_CMD, 0x0B, GDP_ACCEPTED), lengths[f], 1);
        good(put(tilted, GDP_CMD, 0x11, GDP_ACCEPTED), lengths[f], 1);
        bad_states(idle);
        const gdp_state states[] = {idle, tilted, letter, slanted, clear, put(idle, GDP_CMD, 0x0C, GDP_ACCEPTED),
                                    put(idle, GDP_CMD, 0x08, GDP_ACCEPTED)};
        for (unsigned i = 0; i < sizeof states / sizeof *states; i++) {
            gdp_state s = states[i];
            left_overs(s, lengths[f]);
            for (unsigned level = 1; level < 5; level++) { /* VB high, low and again: a clear may have two frames */
                s = set_vb(s, (uint8_t)(level % 2), lengths[f], GDP_ACCEPTED);
                left_overs(s, lengths[f]);
            }
        }
    }
    return judged();
}
