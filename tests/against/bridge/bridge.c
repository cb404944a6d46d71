/* Makes the library's calls for a program on another processor: both map one file, and a byte on a pipe says
   whose turn it is. An emulator runs this; it stands on system calls alone, so it needs no C library. */

/* No header either: these are the compiler's own names. */
typedef __UINT8_TYPE__ uint8_t;
typedef __UINT16_TYPE__ uint16_t;
typedef __UINT32_TYPE__ uint32_t;
typedef __UINT64_TYPE__ uint64_t;
typedef __SIZE_TYPE__ size_t;

typedef struct {
    uint16_t x, y, done;
    uint8_t ctrl1, ctrl2, csize, deltax, deltay, xlp, ylp, code, modes, signals;
} Flat;
typedef struct {
    uint8_t number;
    uint16_t value;
    Flat state;
} FlatAnswer;
typedef struct {
    uint8_t number, low, high, msl;
} FlatAddress;
typedef struct {
    uint8_t number;
    uint32_t value;
} FlatPbm;
_Static_assert(sizeof(Flat) == 16 && sizeof(FlatAnswer) == 20 && sizeof(FlatAddress) == 4 && sizeof(FlatPbm) == 8, "layout");

FlatAnswer gdp_fresh(uint8_t format);
FlatAnswer gdp_write(Flat state, uint8_t address, uint8_t value);
FlatAnswer gdp_read(Flat state, uint8_t address);
FlatAnswer gdp_grant(Flat state, uint16_t n, uint8_t *pic, size_t pic_len, const uint8_t *table, size_t table_len);
FlatAnswer gdp_set_vb(Flat state, uint8_t level, uint8_t *pic, size_t pic_len);
FlatAnswer gdp_lpck(Flat state, uint16_t h, uint16_t v);
FlatAddress gdp_address(Flat state);
FlatPbm gdp_write_pbm(uint8_t format, const uint8_t *picture, size_t picture_length, uint8_t *buffer, size_t buffer_length);
FlatPbm gdp_read_pbm(uint8_t format, const uint8_t *file, size_t file_length, uint8_t *picture, size_t picture_length);

/* The same order and places as in src/bridge.rs. */
enum { FRESH, WRITE, READ, GRANT, SET_VB, LPCK, ADDRESS, WRITE_PBM, READ_PBM };
typedef struct {
    uint64_t at, length; /* a place in the file */
} Loan;
typedef struct {
    uint8_t kind, first, second, unused;
    uint16_t n, m;
    Loan picture, table, pbm;
    Flat state;
    FlatAnswer answer;
    FlatAddress lines;
    FlatPbm pbm_answer;
} Turn;
_Static_assert(sizeof(Turn) == 104, "layout");

enum { SYS_READ = 0, SYS_WRITE = 1, SYS_OPEN = 2, SYS_MMAP = 9, SYS_EXIT = 60 };

static long sys(long call, long a, long b, long c, long d, long e) {
    long result;
    register long r10 __asm__("r10") = d;
    register long r8 __asm__("r8") = e;
    register long r9 __asm__("r9") = 0;
    __asm__ volatile("syscall"
                     : "=a"(result)
                     : "a"(call), "D"(a), "S"(b), "d"(c), "r"(r10), "r"(r8), "r"(r9)
                     : "rcx", "r11", "memory");
    return result;
}

/* The library fills a picture by this. */
void *memset(void *to, int byte, size_t count) {
    void *at = to;
    __asm__ volatile("rep stosb" : "+D"(at), "+c"(count) : "a"(byte) : "memory");
    return to;
}

static void take(uint8_t *file) {
    Turn *turn = (Turn *)file;
    uint8_t *picture = file + turn->picture.at, *table = file + turn->table.at, *pbm = file + turn->pbm.at;
    switch (turn->kind) {
    case FRESH:
        turn->answer = gdp_fresh(turn->first);
        break;
    case WRITE:
        turn->answer = gdp_write(turn->state, turn->first, turn->second);
        break;
    case READ:
        turn->answer = gdp_read(turn->state, turn->first);
        break;
    case GRANT:
        turn->answer = gdp_grant(turn->state, turn->n, picture, turn->picture.length, table, turn->table.length);
        break;
    case SET_VB:
        turn->answer = gdp_set_vb(turn->state, turn->first, picture, turn->picture.length);
        break;
    case LPCK:
        turn->answer = gdp_lpck(turn->state, turn->n, turn->m);
        break;
    case ADDRESS:
        turn->lines = gdp_address(turn->state);
        break;
    case WRITE_PBM:
        turn->pbm_answer = gdp_write_pbm(turn->first, picture, turn->picture.length, pbm, turn->pbm.length);
        break;
    default:
        turn->pbm_answer = gdp_read_pbm(turn->first, pbm, turn->pbm.length, picture, turn->picture.length);
    }
}

/* The words at the start of the stack: argc, the program's name, the file's name, its length in decimal. */
void run(long *words) {
    const char *digits = (const char *)words[3];
    long length = 0;
    while (*digits)
        length = 10 * length + (*digits++ - '0');
    long file = sys(SYS_OPEN, words[2], 2, 0, 0, 0);
    long at = sys(SYS_MMAP, 0, length, 3, 1, file);
    if (file < 0 || (at < 0 && at > -4096))
        sys(SYS_EXIT, 2, 0, 0, 0, 0);
    char byte = 0;
    do {
        sys(SYS_WRITE, 1, (long)&byte, 1, 0, 0);
        if (sys(SYS_READ, 0, (long)&byte, 1, 0, 0) != 1)
            sys(SYS_EXIT, 0, 0, 0, 0, 0);
        take((uint8_t *)at);
    } while (1);
}

__asm__(".globl _start\n_start:\n mov %rsp, %rdi\n and $-16, %rsp\n call run\n hlt\n");
