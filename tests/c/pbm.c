/* Every refusal of gdp_write_pbm and gdp_read_pbm, and what they accept, through include/gdp.h. Held: the number is the
   lowest that applies; what is written is the file or the picture, and nothing else; a refusal has value 0 and writes
   nothing. Each call is made twice: in memory of exactly its length, so that a checker sees any step past the end, and
   with guard bytes on both sides, which show it where no checker runs. What answers otherwise is told, and the exit
   status is then 1. tools/hosts runs it. */
#include "judge.h"

enum { GUARD = 64 };

typedef struct {
    uint8_t *block, *bytes; /* bytes is null where the block is: a memory of no bytes without guards */
    size_t length, guard;
} memory;

static memory lend(size_t length, size_t guard) {
    uint8_t *block = lent(guard + length + guard);
    return (memory){.block = block, .bytes = block ? block + guard : NULL, .length = length, .guard = guard};
}

/* Whether all but the first bytes is as it was lent, the guards too. */
static int kept_behind(memory m, size_t first) {
    return as_lent(m.block, 0, m.guard) && as_lent(m.block, m.guard + first, m.guard + m.length + m.guard);
}

static const struct {
    unsigned width, height;
    size_t bytes, file;
} formats[3] = {
    {512, 256, GDP_EF9366_BYTES, GDP_EF9366_PBM_BYTES},
    {512, 512, GDP_FMAT_HIGH_BYTES, GDP_FMAT_HIGH_PBM_BYTES},
    {256, 256, GDP_FMAT_LOW_BYTES, GDP_FMAT_LOW_PBM_BYTES},
};

static uint8_t sign(unsigned format, const uint8_t *picture, unsigned x, unsigned y) {
    return (uint8_t)('0' + (picture[y * (formats[format].width / 8) + x / 8] >> x % 8 & 1));
}

/* Whether it is the picture's file, as include/gdp.h describes it. */
static int is_file(unsigned format, const uint8_t *picture, const uint8_t *file) {
    unsigned width = formats[format].width, height = formats[format].height;
    char head[32];
    size_t at = (size_t)snprintf(head, sizeof head, "P1\n%u %u\n", width, height);
    if (memcmp(file, head, at) != 0)
        return 0;
    for (unsigned y = height; y-- > 0;)
        for (unsigned x = 0; x < width; x++) {
            if (file[at++] != sign(format, picture, x, y))
                return 0;
            if (x % 64 == 63 && file[at++] != '\n')
                return 0;
        }
    return at == formats[format].file;
}

static void writes(unsigned format, size_t picture_length, size_t buffer_length, unsigned wanted) {
    for (size_t guard = 0; guard <= GUARD; guard += GUARD) {
        memory picture = lend(picture_length, guard), buffer = lend(buffer_length, guard);
        gdp_pbm_answer a = gdp_write_pbm((uint8_t)format, picture.bytes, picture_length, buffer.bytes, buffer_length);
        size_t written = wanted == GDP_ACCEPTED ? formats[format].file : 0;
        int kept = kept_behind(picture, 0) && kept_behind(buffer, written);
        int right = written == 0 || is_file(format, picture.bytes, buffer.bytes);
        judge(a.value == written && kept && right, "gdp_write_pbm", a.number, wanted);
        free(picture.block);
        free(buffer.block);
    }
}

/* The picture of the files that are read here; its bytes are others than those that memory is lent with. */
static uint8_t drawn[GDP_FMAT_HIGH_BYTES];

static void draw(void) {
    for (size_t i = 0; i < sizeof drawn; i++)
        drawn[i] = (uint8_t)(i * i / 7 + i / 64);
}

static void reads(unsigned format, const uint8_t *text, size_t length, size_t picture_length, unsigned wanted) {
    for (size_t guard = 0; guard <= GUARD; guard += GUARD) {
        memory file = lend(length, guard), picture = lend(picture_length, guard);
        if (length)
            memcpy(file.bytes, text, length);
        gdp_pbm_answer a = gdp_read_pbm((uint8_t)format, file.bytes, length, picture.bytes, picture_length);
        size_t read = wanted == GDP_ACCEPTED ? picture_length : 0;
        int kept = kept_behind(picture, read) && kept_behind(file, length);
        int same = length == 0 || memcmp(file.bytes, text, length) == 0;
        int right = read == 0 || memcmp(picture.bytes, drawn, read) == 0;
        judge(a.value == 0 && kept && same && right, "gdp_read_pbm", a.number, wanted);
        free(file.block);
        free(picture.block);
    }
}

/* The text of a file, made piece by piece. */
static uint8_t text[8 * 8 * GDP_FMAT_HIGH_BYTES];
static size_t end;

static void say(const char *words) {
    size_t length = strlen(words);
    memcpy(text + end, words, length);
    end += length;
}

/* Every dot of the drawn picture, with something between each two. */
static void say_dots(unsigned format, const char *between) {
    for (unsigned y = formats[format].height; y-- > 0;)
        for (unsigned x = 0; x < formats[format].width; x++) {
            text[end++] = sign(format, drawn, x, y);
            if (x + 1 < formats[format].width || y > 0)
                say(between);
        }
}

static void say_size(unsigned format) {
    char size[32];
    snprintf(size, sizeof size, "%u %u\n", formats[format].width, formats[format].height);
    say(size);
}

/* A file that ends with its last dot. */
static void say_file(unsigned format, const char *between) {
    end = 0;
    say("P1\n");
    say_size(format);
    say_dots(format, between);
}

static void whole_text(unsigned format, unsigned wanted) {
    reads(format, text, end, formats[format].bytes, wanted);
}

/* 2 before 9; a buffer that is just long enough, and longer. */
static void lengths_of_writing(unsigned format) {
    size_t bytes = formats[format].bytes, file = formats[format].file;
    const size_t pictures[] = {0, 1, bytes - 1, bytes, bytes + 1, 8192, 16384, 32768};
    const size_t buffers[] = {0, 1, 11, bytes, file - 1, file, file + 1, file + 1000};
    for (unsigned i = 0; i < 8; i++)
        for (unsigned j = 0; j < 8; j++)
            writes(format, pictures[i], buffers[j],
                   pictures[i] != bytes ? GDP_BAD_PICTURE
                   : buffers[j] < file  ? GDP_SHORT_BUFFER
                                        : GDP_ACCEPTED);
}

/* 2 before 10, 11 and 12. */
static void lengths_of_reading(unsigned format) {
    size_t bytes = formats[format].bytes;
    const size_t pictures[] = {0, 1, bytes - 1, bytes, bytes + 1, 8192, 16384, 32768};
    say_file(format, "");
    for (unsigned i = 0; i < 8; i++) {
        int fits = pictures[i] == bytes;
        reads(format, NULL, 0, pictures[i], fits ? GDP_NO_PBM : GDP_BAD_PICTURE);
        reads(format, text, 3, pictures[i], fits ? GDP_NO_PBM : GDP_BAD_PICTURE);
        reads(format, text, 8, pictures[i], fits ? GDP_OTHER_SIZE : GDP_BAD_PICTURE);
        reads(format, text, end - 1, pictures[i], fits ? GDP_BAD_DOTS : GDP_BAD_PICTURE);
        reads(format, text, end, pictures[i], fits ? GDP_ACCEPTED : GDP_BAD_PICTURE);
    }
}

/* No picture has the length of a format that is none, not even of no bytes. */
static void no_format(unsigned number) {
    writes(number, 0, 0, GDP_BAD_PICTURE);
    reads(number, NULL, 0, 0, GDP_BAD_PICTURE);
}

/* Nor one of another format, with all else right. */
static void no_format_with_memory(unsigned number) {
    for (unsigned f = 0; f < 3; f++) {
        say_file(f, "");
        writes(number, formats[f].bytes, formats[f].file, GDP_BAD_PICTURE);
        reads(number, text, end, formats[f].bytes, GDP_BAD_PICTURE);
    }
}

/* What is written is read back. */
static void there_and_back(unsigned format) {
    gdp_pbm_answer a = gdp_write_pbm((uint8_t)format, drawn, formats[format].bytes, text, sizeof text);
    judge(a.value == formats[format].file, "gdp_write_pbm", a.number, GDP_ACCEPTED);
    reads(format, text, a.value, formats[format].bytes, GDP_ACCEPTED);
}

static unsigned any_below(unsigned below) {
    static uint32_t seed = 1;
    seed = seed * 1664525 + 1013904223;
    return (seed >> 8) % below;
}

/* The number for a file that gdp_write_pbm wrote, cut: both its numbers have three digits. */
static unsigned of_cut(unsigned format, size_t length) {
    return length < sizeof "P1\n512 2" - 1      ? GDP_NO_PBM
           : length < sizeof "P1\n512 256" - 1  ? GDP_OTHER_SIZE
           : length < formats[format].file - 1 ? GDP_BAD_DOTS /* the last line feed may lack */
                                               : GDP_ACCEPTED;
}

static void cuts(unsigned format) {
    size_t file = formats[format].file;
    gdp_write_pbm((uint8_t)format, drawn, formats[format].bytes, text, sizeof text);
    for (size_t length = 0; length <= 40; length++)
        reads(format, text, length, formats[format].bytes, of_cut(format, length));
    for (size_t length = file - 3; length <= file; length++)
        reads(format, text, length, formats[format].bytes, of_cut(format, length));
    for (unsigned i = 0; i < 60; i++) {
        size_t length = any_below((unsigned)file);
        reads(format, text, length, formats[format].bytes, of_cut(format, length));
    }
}

/* A beginning, and one byte again and again up to the end. */
static void endless(const char *begins, char again, unsigned wanted) {
    end = 0;
    say(begins);
    size_t begun = end;
    memset(text + begun, again, 4096);
    for (size_t length = begun + 1; length <= begun + 40; length++)
        reads(GDP_EF9366, text, length, GDP_EF9366_BYTES, wanted);
    for (unsigned i = 0; i < 20; i++)
        reads(GDP_EF9366, text, begun + 1 + any_below(4096), GDP_EF9366_BYTES, wanted);
}

static void files_without_end(void) {
    endless("P1", '#', GDP_NO_PBM);
    endless("P1", ' ', GDP_NO_PBM);
    endless("P1\n# ", 'x', GDP_NO_PBM);
    endless("P1\n", '0', GDP_NO_PBM);
    endless("P1\n512", '\n', GDP_NO_PBM);
    endless("P1\n512#", '#', GDP_NO_PBM);
    endless("P1\n512 ", '9', GDP_OTHER_SIZE);
    endless("P1\n512 ", '0', GDP_OTHER_SIZE);
    endless("P1\n512 256", '0', GDP_OTHER_SIZE);
    endless("P1\n512 256", '\r', GDP_BAD_DOTS);
    endless("P1\n512 256", '#', GDP_BAD_DOTS);
    endless("P1\n512 256\n", '1', GDP_BAD_DOTS);
    endless("P1\n512 256\n01 #", '1', GDP_BAD_DOTS);
    endless("P1\n512 256\n01 ", '\t', GDP_BAD_DOTS);
}

/* What stands before the dots of an EF9366, and the number for it. */
static const struct {
    const char *words;
    unsigned wanted;
} heads[] = {
    {"P1\n512 256\n", GDP_ACCEPTED},
    {"P1 512 256 ", GDP_ACCEPTED},
    {"P1\t512\t256\t", GDP_ACCEPTED},
    {"P1\r512\r256\r", GDP_ACCEPTED},
    {"P1\r\n512\r\n256\r\n", GDP_ACCEPTED},
    {"P1\n\n \t\r512 \n 256 \t\n", GDP_ACCEPTED},
    {"P1#\n512 256\n", GDP_ACCEPTED},
    {"P1 # P1 9 9\n#\n512#512\n256#256\n", GDP_ACCEPTED},
    {"P1\n# a lone CR\r9 9 ends no comment\n512 256\n", GDP_ACCEPTED},
    {"P1\r\n# by CR and LF\r\n512 256\r\n", GDP_ACCEPTED},
    {"P1\n0512 000000000000000000000000000000000000000256\n", GDP_ACCEPTED},
    {"", GDP_NO_PBM},
    {" P1\n512 256\n", GDP_NO_PBM},
    {"#\nP1\n512 256\n", GDP_NO_PBM},
    {"P 1\n512 256\n", GDP_NO_PBM},
    {"p1\n512 256\n", GDP_NO_PBM},
    {"P2\n512 256\n", GDP_NO_PBM},
    {"P4\n512 256\n", GDP_NO_PBM},
    {"P1512 256\n", GDP_NO_PBM},
    {"P1\v512 256\n", GDP_NO_PBM},
    {"P1\f512 256\n", GDP_NO_PBM},
    {"P1x\n512 256\n", GDP_NO_PBM},
    {"P1\n+512 256\n", GDP_NO_PBM},
    {"P1\n-512 256\n", GDP_NO_PBM},
    {"P1\n512 +256\n", GDP_NO_PBM},
    {"P1\n512x256\n", GDP_NO_PBM},
    {"P1\n512,256\n", GDP_NO_PBM},
    {"P1\n512\v256\n", GDP_NO_PBM},
    {"P1\n512 x256\n", GDP_NO_PBM},
    {"P1\n0x200 256\n", GDP_NO_PBM},
    {"P1\n9 x\n", GDP_NO_PBM},
    {"P1\n256 512\n", GDP_OTHER_SIZE},
    {"P1\n512 257\n", GDP_OTHER_SIZE},
    {"P1\n0 256\n", GDP_OTHER_SIZE},
    {"P1\n512 256", GDP_OTHER_SIZE},
    {"P1\n66048 256\n", GDP_OTHER_SIZE},                /* 512 + 2 to the 16th */
    {"P1\n4294967808 256\n", GDP_OTHER_SIZE},           /* 512 + 2 to the 32nd */
    {"P1\n18446744073709552128 256\n", GDP_OTHER_SIZE}, /* 512 + 2 to the 64th */
    {"P1\n512 18446744073709551872\n", GDP_OTHER_SIZE}, /* 256 + 2 to the 64th */
    {"P1\n51#\n2 256\n", GDP_OTHER_SIZE},
    {"P1\n512 257x\n", GDP_OTHER_SIZE},
    {"P1\n512 256x\n", GDP_BAD_DOTS},
    {"P1\n512 256\v", GDP_BAD_DOTS},
    {"P1\n512 256\f\n", GDP_BAD_DOTS},
    {"P1\n512 256\n-", GDP_BAD_DOTS},
    {"P1\n512 256\n2", GDP_BAD_DOTS},
    {"P1\n512 256\n#", GDP_BAD_DOTS}, /* the dots stand in the comment */
};

static void each_head(void) {
    for (unsigned i = 0; i < sizeof heads / sizeof *heads; i++) {
        end = 0;
        say(heads[i].words);
        say_dots(GDP_EF9366, "");
        whole_text(GDP_EF9366, heads[i].wanted);
    }
}

static void sizes_of_others(unsigned format) {
    say_file(format, "");
    for (unsigned other = 0; other < 3; other++)
        whole_text(other, other == format ? GDP_ACCEPTED : GDP_OTHER_SIZE);
}

static void white_space(unsigned format) {
    static const char *const between[] = {" ", "\t", "\r", "\n", "\r\n", " \t ", "#\n", "#01\r1\n"};
    for (unsigned i = 0; i < sizeof between / sizeof *between; i++) {
        say_file(format, between[i]);
        whole_text(format, GDP_ACCEPTED);
    }
}

/* A byte in a dot's place; one that is white space leaves a dot too few. */
static void for_a_dot(unsigned format, size_t place, unsigned byte) {
    uint8_t right = text[place];
    text[place] = (uint8_t)byte;
    whole_text(format, GDP_BAD_DOTS);
    text[place] = right;
}

static void signs(unsigned format) {
    static const unsigned some[] = {0, '\t', '\n', '\v', '\f', '\r', ' ', '#', '/', '2', 'P', 255};
    say_file(format, "");
    size_t last = end - 1, first = end - 8 * formats[format].bytes;
    for (unsigned i = 0; i < sizeof some / sizeof *some; i++) {
        for_a_dot(format, first, some[i]);
        for_a_dot(format, first + (last - first) / 2, some[i]);
        for_a_dot(format, last, some[i]);
    }
    end++; /* what follows the last dot */
    for (unsigned i = 0; i < sizeof some / sizeof *some; i++) {
        text[end - 1] = (uint8_t)some[i];
        whole_text(format, GDP_ACCEPTED);
    }
}

static void every_byte_for_a_dot(unsigned format) {
    say_file(format, "");
    size_t first = end - 8 * formats[format].bytes;
    for (unsigned byte = 0; byte < 256; byte++)
        if (byte != '0' && byte != '1')
            for_a_dot(format, first, byte);
}

int main(void) {
    draw();
    for (unsigned f = 0; f < 3; f++) {
        lengths_of_writing(f);
        lengths_of_reading(f);
        there_and_back(f);
        sizes_of_others(f);
        white_space(f);
        cuts(f);
        signs(f);
    }
    for (unsigned number = 3; number < 256; number++)
        no_format(number);
    every_byte_for_a_dot(GDP_FMAT_LOW);
    no_format_with_memory(3);
    no_format_with_memory(255);
    each_head();
    files_without_end();
    return judged();
}
