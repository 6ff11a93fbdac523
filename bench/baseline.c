/* The algorithms of the proved crates in plain C, for bench.c to compare with. */
#include "baseline.h"
#include <stdbool.h>
#include <string.h>

/* ---- checksums: eight tables of a polynomial, eight bytes a step ---- */

enum { DOW = 0x98 };
static const uint32_t C324 = 0x82F63B78, IEEE = 0xEDB88320;

typedef uint32_t Tables[8][256];

static void make_tables(uint32_t poly, Tables t) {
    for (uint32_t i = 0; i < 256; i++) {
        uint32_t c = i;
        for (int k = 0; k < 8; k++)
            c = c & 1 ? c >> 1 ^ poly : c >> 1;
        t[0][i] = c;
    }
    for (int j = 1; j < 8; j++)
        for (int i = 0; i < 256; i++)
            t[j][i] = t[j - 1][i] >> 8 ^ t[0][t[j - 1][i] & 255];
}

static uint32_t sum_by(Tables t, uint32_t c, const uint8_t *s, size_t n) {
    for (; n >= 8; s += 8, n -= 8)
        c = t[7][(c ^ s[0]) & 255] ^ t[6][(c >> 8 ^ s[1]) & 255] ^ t[5][(c >> 16 ^ s[2]) & 255] ^ t[4][c >> 24 ^ s[3]]
            ^ t[3][s[4]] ^ t[2][s[5]] ^ t[1][s[6]] ^ t[0][s[7]];
    for (; n > 0; s++, n--)
        c = c >> 8 ^ t[0][(c ^ *s) & 255];
    return c;
}

uint8_t c_dowcrc(const uint8_t *s, size_t n) {
    Tables t;
    make_tables(DOW, t);
    return sum_by(t, 0, s, n);
}

uint32_t c_crc324(const uint8_t *s, size_t n) {
    Tables t;
    make_tables(C324, t);
    return sum_by(t, 0, s, n);
}

uint32_t c_crc32(const uint8_t *s, size_t n) {
    Tables t;
    make_tables(IEEE, t);
    return ~sum_by(t, ~0u, s, n);
}

/* ---- the machine: the state in a struct, passed by pointer ---- */

enum { READ = 1, WRITE = 2, NARROW = 4, BANKSW = 8, PFE = 8 };

static uint32_t location(uint16_t entry, uint16_t at) {
    return (entry * 256u + at % 256) % LENT_LIMIT;
}

static bool is_silent(uint16_t at) {
    return at < 0x500 || at / 4096 == 1 || at / 4096 == 3;
}

/* ---- the accelerators: on for fields 1 and 3, in $8000-$9FFF ---- */

static Jlp fresh_jlp(uint16_t field, uint16_t sectors) {
    return (Jlp){.field = field, .on = field == 1 || field == 3, .sectors = field >= 2 ? sectors : 0};
}

static bool in_window(uint16_t at) {
    return at / 0x2000 == 4;
}

static bool in_jlp_ram(uint16_t at) {
    return at >= 0x8040 && at <= 0x9F7F;
}

static void divide(Jlp *j, int32_t a, int32_t b) {
    if (b == 0)
        return;
    j->first = a / b;
    j->second = a % b;
}

/* Operand k is written, and its own function computes. */
static void operate(Jlp *j, int k, uint16_t value) {
    j->operands[k] = value;
    uint16_t a = j->operands[k & ~1], b = j->operands[k | 1];
    if (k >= 8)
        return k < 10 ? divide(j, (int16_t)a, (int16_t)b) : divide(j, a, b);
    uint32_t x = k < 4 ? (uint32_t)(int16_t)a : a, y = k < 2 || k / 2 == 2 ? (uint32_t)(int16_t)b : b, p = x * y;
    j->first = p;
    j->second = p >> 16;
}

static uint16_t crc_word(uint16_t crc, uint16_t word) {
    crc ^= word;
    for (int k = 0; k < 16; k++)
        crc = crc & 1 ? crc >> 1 ^ 0xAD52 : crc >> 1;
    return crc;
}

enum { ROW = 96, SECTOR = 8, SECTOR_LIMIT = 682, ERASED = 0xFFFF };

static bool has_flash(const Jlp *j) {
    return j->sectors >= 1 && j->sectors <= SECTOR_LIMIT;
}

static bool ram_lent(uint16_t at, size_t words) {
    return at >= 0x8040 && at + ROW <= 0x9F80 && at + 0x8000u + ROW <= words;
}

static bool is_empty(const uint16_t *row) {
    for (int i = 0; i < ROW; i++)
        if (row[i] != ERASED)
            return false;
    return true;
}

/* A command acts, or is dropped and changes nothing. */
static void command(const Jlp *j, uint16_t *ram, size_t words, uint16_t *flash, size_t flash_words, uint16_t at, uint16_t value) {
    if (!has_flash(j) || j->row >= SECTOR * j->sectors)
        return;
    size_t from = (size_t)ROW * j->row, sector = (size_t)ROW * SECTOR * (j->row / SECTOR);
    bool there = from + ROW <= flash_words && ram_lent(j->addr, words);
    if (at == 0x802D && value == 0xC0DE && there && is_empty(flash + from))
        memcpy(flash + from, ram + j->addr + 0x8000u, ROW * sizeof *ram);
    if (at == 0x802E && value == 0xDEC0 && there)
        memcpy(ram + j->addr + 0x8000u, flash + from, ROW * sizeof *ram);
    if (at == 0x802F && value == 0xBEEF && sector + ROW * SECTOR <= flash_words)
        memset(flash + sector, 0xFF, ROW * SECTOR * sizeof *flash);
}

static void write_register(Jlp *j, uint16_t at, uint16_t value) {
    if (at == 0x8034 && value == 0x6A7A)
        j->on = 0;
    else if (at >= 0x9F80 && at <= 0x9F8B)
        operate(j, at - 0x9F80, value);
    else if (at == 0x9FFC)
        j->crc = crc_word(j->crc, value);
    else if (at == 0x9FFD)
        j->crc = value;
    else if (at == 0x8025 && has_flash(j))
        j->addr = value;
    else if (at == 0x8026 && has_flash(j))
        j->row = value;
}

static uint32_t read_register(const Jlp *j, uint16_t at) {
    if (has_flash(j) && (at == 0x8023 || at == 0x8024))
        return at == 0x8023 ? 0 : SECTOR * j->sectors - 1;
    return at == 0x9F8E ? j->first : at == 0x9F8F ? j->second : at == 0x9FFD ? j->crc : SILENCE;
}

/* Reads and writes are set into the loops that make them, by force: three loops share them, and gcc would call them. */
#define INTO_THE_LOOP static inline __attribute__((always_inline))

INTO_THE_LOOP uint32_t read_word(const Cartridge *c, const uint16_t *ram, size_t words, uint16_t at) {
    if (c->jlp.on && in_window(at)) {
        if (!in_jlp_ram(at))
            return read_register(&c->jlp, at);
        return at + 0x8000u < words ? ram[at + 0x8000u] : SILENCE;
    }
    uint32_t l = location(c->mapping[at / 256], at);
    if (!(c->permissions[at / 256] & READ) || l >= words || is_silent(at))
        return SILENCE;
    return ram[l];
}

/* A flip, a bankswitch and a write answer how many mapping entries they have assigned. */
static uint8_t flip(Cartridge *c, int n) {
    int x = n / 16, first = x == 4 ? 8 : 0;
    uint16_t entry = c->flips[n];
    for (int k = first; k < 16; k++) {
        c->readable += (entry & READ) - (c->permissions[16 * x + k] & READ);
        c->mapping[16 * x + k] = entry / 16 * 16 + k;
        c->permissions[16 * x + k] = entry % 8;
    }
    return 16 - first;
}

/* Half-page h of eight paragraphs takes the value's low byte and the seven numbers after it, going round. */
static uint8_t bankswitch(Cartridge *c, int h, uint8_t first) {
    for (int j = 0; j < 8; j++)
        c->mapping[8 * h + j] = (uint8_t)(first + j);
    return 8;
}

INTO_THE_LOOP uint8_t write_word(Cartridge *c, uint16_t *ram, size_t words, uint16_t *flash, size_t flash_words, uint16_t at, uint16_t value) {
    int x = at / 4096;
    Jlp *j = &c->jlp;
    if (at == 0x8033 && value == 0x4A5A && j->field) {
        j->on = 1;
        return 0;
    }
    if (j->on && in_window(at)) {
        if (!in_jlp_ram(at)) {
            command(j, ram, words, flash, flash_words, at, value);
            write_register(j, at, value);
        } else if (at + 0x8000u < words)
            ram[at + 0x8000u] = value;
        return 0;
    }
    if (at / 32 == 2) {
        int h = at % 16 * 2 + at / 16 % 2;
        if (c->permissions[8 * h] & BANKSW)
            return bankswitch(c, h, value);
    }
    if (at % 4096 == 0xFFF && value / 4096 == x && value / 16 % 256 == 0xA5 && x >= 2) {
        int n = 16 * x + value % 16;
        if (c->flips[n] & PFE)
            return flip(c, n);
    }
    uint8_t permission = c->permissions[at / 256];
    uint32_t l = location(c->mapping[at / 256], at);
    if (!(permission & WRITE) || l >= words)
        return 0;
    ram[l] = permission & NARROW ? ram[l] / 256 * 256 + value % 256 : value;
    return 0;
}

void c_reads(const Cartridge *c, const uint16_t *ram, size_t words, const uint16_t *at, size_t n, uint32_t *out) {
    if (words > LENT_LIMIT)
        words = LENT_LIMIT;
    for (size_t i = 0; i < n; i++)
        out[i] = read_word(c, ram, words, at[i]);
}

void c_writes(Cartridge *c, uint16_t *ram, size_t words, uint16_t *flash, size_t flash_words, const uint16_t *at, const uint16_t *value, size_t n, uint8_t *assigned) {
    if (words > LENT_LIMIT)
        words = LENT_LIMIT;
    for (size_t i = 0; i < n; i++)
        assigned[i] = write_word(c, ram, words, flash, flash_words, at[i], value[i]);
}

static void reset(Cartridge *c) {
    memcpy(c->mapping, c->initial_mapping, sizeof c->mapping);
    memcpy(c->permissions, c->initial_permissions, sizeof c->permissions);
    c->readable = 0;
    for (int p = 0; p < 256; p++)
        c->readable += c->permissions[p] & READ;
    c->jlp.on = c->jlp.field == 1 || c->jlp.field == 3;
}

/* One access a call. */
uint32_t c_read(const Cartridge *c, const uint16_t *ram, size_t words, uint16_t at) {
    return read_word(c, ram, words > LENT_LIMIT ? LENT_LIMIT : words, at);
}

uint8_t c_write(Cartridge *c, uint16_t *ram, size_t words, uint16_t *flash, size_t flash_words, uint16_t at, uint16_t value) {
    return write_word(c, ram, words > LENT_LIMIT ? LENT_LIMIT : words, flash, flash_words, at, value);
}

void c_reset(Cartridge *c) {
    reset(c);
}

/* The same with the cartridge by value. */
uint32_t c_read_by_value(Cartridge c, const uint16_t *ram, size_t words, uint16_t at) {
    return c_read(&c, ram, words, at);
}

Written c_write_by_value(Cartridge c, uint16_t *ram, size_t words, uint16_t *flash, size_t flash_words, uint16_t at, uint16_t value) {
    uint8_t assigned = c_write(&c, ram, words, flash, flash_words, at, value);
    return (Written){c, assigned};
}

Cartridge c_reset_by_value(Cartridge c) {
    reset(&c);
    return c;
}

/* ---- a list of accesses: a pass that checks every line, then one that makes the accesses ---- */

typedef enum { MALFORMED, READS, WRITES, RESETS } Op;

typedef struct {
    Op op;
    uint16_t at, value;
} Access;

static int hex(uint8_t b) {
    return b >= '0' && b <= '9' ? b - '0' : b >= 'A' && b <= 'F' ? b - 'A' + 10 : b >= 'a' && b <= 'f' ? b - 'a' + 10 : -1;
}

static bool word_of(const uint8_t *s, uint16_t *w) {
    int a = hex(s[0]), b = hex(s[1]), c = hex(s[2]), d = hex(s[3]);
    *w = ((a * 16 + b) * 16 + c) * 16 + d;
    return a >= 0 && b >= 0 && c >= 0 && d >= 0;
}

static Access says(const uint8_t *s, size_t n) {
    Access x = {MALFORMED, 0, 0};
    if (n == 14 && !memcmp(s, "op=r addr=", 10) && word_of(s + 10, &x.at))
        x.op = READS;
    else if (n == 25 && !memcmp(s, "op=w addr=", 10) && !memcmp(s + 14, " value=", 7) && word_of(s + 10, &x.at) && word_of(s + 21, &x.value))
        x.op = WRITES;
    else if (n == 4 && !memcmp(s, "op=x", 4))
        x.op = RESETS;
    return x;
}

/* The end of the line at `at`, and where the next one starts. */
static size_t end_of(const uint8_t *s, size_t n, size_t at) {
    while (at < n && s[at] != '\n' && !(s[at] == '\r' && at + 1 < n && s[at + 1] == '\n'))
        at++;
    return at;
}

static size_t behind(const uint8_t *s, size_t n, size_t end) {
    return end == n ? n : s[end] == '\n' ? end + 1 : end + 2;
}

Ran c_run(const uint8_t *list, size_t n, size_t limit, Cartridge *c, uint16_t *ram, size_t words, uint16_t *flash, size_t flash_words, uint32_t *out, size_t room) {
    size_t lines = 0, reads = 0, k = 0;
    for (size_t at = 0, end; at < n; at = behind(list, n, end)) {
        end = end_of(list, n, at);
        lines++;
        Op op = says(list + at, end - at).op;
        if (op == MALFORMED)
            return (Ran){33, lines, 0, 0};
        reads += op == READS;
    }
    if (room < reads)
        return (Ran){29, 0, 0, reads};
    if (words > LENT_LIMIT)
        words = LENT_LIMIT;
    if (limit < lines)
        lines = limit;
    for (size_t i = 0, at = 0, end; i < lines; i++, at = behind(list, n, end)) {
        end = end_of(list, n, at);
        Access x = says(list + at, end - at);
        if (x.op == READS)
            out[k++] = read_word(c, ram, words, x.at);
        else if (x.op == WRITES)
            write_word(c, ram, words, flash, flash_words, x.at, x.value);
        else
            reset(c);
    }
    return (Ran){0, 0, lines, k};
}

/* ---- the loader: a pass that checks, then one that stores ---- */

static size_t get16(const uint8_t *s) {
    return s[0] | (size_t)s[1] << 8;
}

static uint32_t get32(const uint8_t *s) {
    return get16(s) | (uint32_t)get16(s + 2) << 16;
}

/* The words of the data block that starts with this byte, and its bytes; 0 for a reserved start. */
static size_t block_words(uint8_t start) {
    if (start == 0 || start >= 0xFE)
        return 0;
    return start < 0x40 ? start : start < 0xC0 ? start - 0x3F : start - 0xBF;
}

static size_t block_bytes(uint8_t start, size_t n) {
    return start < 0x40 ? 2 + n : start < 0xC0 ? 2 + (n + 2) / 4 + n : 1 + 2 * n;
}

/* The words of a hunk's payload; -1 less the place of its first data block that is cut, reserved, or reaches past the RAM, or of its
   first byte where it is cut before any. */
static long check_hunk(const uint8_t *s, size_t n, size_t words) {
    if (n < 3)
        return -1;
    size_t address = get16(s) + ((size_t)s[2] << 16), count = 0;
    for (size_t p = 3; p < n;) {
        size_t w = block_words(s[p]), b = block_bytes(s[p], w);
        if (w == 0 || b > n - p || address + count + w > words)
            return -1 - (long)p;
        count += w;
        p += b;
    }
    return count;
}

/* Answers how many words it stored. */
static size_t store_hunk(const uint8_t *s, size_t n, uint16_t *ram) {
    uint16_t *first = ram + get16(s) + ((size_t)s[2] << 16), *to = first;
    for (size_t p = 3; p < n;) {
        size_t w = block_words(s[p]);
        const uint8_t *from = s + p + 1;
        p += block_bytes(s[p], w);
        if (from[-1] >= 0xC0) {
            for (size_t i = 0; i < w; i++)
                to[i] = get16(from + 2 * i);
        } else if (from[-1] < 0x40) {
            for (size_t i = 0; i + 1 < w; i++)
                to[i] = from[i];
            to[w - 1] = get16(from + w - 1);
        } else {
            for (size_t i = 0; i + 1 < w; i += 4) {
                uint8_t tops = *from++;
                for (size_t j = i; j < i + 4 && j + 1 < w; j++, tops <<= 2)
                    to[j] = *from++ | (tops >> 6) << 8;
            }
            to[w - 1] = get16(from);
        }
        to += w;
    }
    return to - first;
}

static Cartridge cartridge_of(const uint8_t *s) {
    Cartridge c;
    c.readable = 0;
    for (int i = 0; i < 256; i++) {
        c.readable += s[512 + i] & READ;
        c.initial_mapping[i] = c.mapping[i] = get16(s + 2 * i);
        c.initial_permissions[i] = c.permissions[i] = s[512 + i];
        c.flips[i] = get16(s + 768 + 2 * i);
    }
    return c;
}

static uint16_t flash_size(const uint8_t *flags) {
    return flags[2] / 64 + 4 * flags[3];
}

size_t c_flash_words(const uint8_t *s, size_t n) {
    return n >= 20 && (s[6] & 3) >= 2 ? (size_t)ROW * SECTOR * flash_size(s + 4) : 0;
}

/* Refusal 10, 11, or 13. */
static int not_had(const uint8_t *flags, const Cartridge *c, size_t words, size_t flash_words) {
    bool flipped = false;
    for (int i = 16; i < 32; i++)
        flipped = flipped || c->flips[i] & PFE;
    if (flags[4] & 1 || flipped)
        return 10;
    int field = flags[2] & 3;
    if (field && words < 73600)
        return 11;
    size_t size = flash_size(flags);
    return field >= 2 && (size > SECTOR_LIMIT || flash_words != ROW * SECTOR * size) ? 13 : 0;
}

/* Refusals 10, 11 and 13, where the flash that is lent fits the size. */
static int not_fit(const uint8_t *flags, const Cartridge *c, size_t words) {
    return not_had(flags, c, words, (size_t)ROW * SECTOR * flash_size(flags));
}

/* TutorVision's number where an image states nothing of it. */
enum { NOT_STATED = 4 };

static Loading refused_load(uint32_t number, size_t place) {
    Loading r;
    memset(&r, 0, sizeof r);
    r.number = number;
    r.place = place;
    r.compat[4] = NOT_STATED;
    return r;
}

/* Whether sub-records of tag, length and text fill the bytes to the last. */
static bool is_whole(const uint8_t *s, size_t n) {
    size_t i = 0;
    while (i < n)
        i += 2 + (i + 1 < n ? s[i + 1] : 0);
    return i == n;
}

/* What the block at p gives: its refusal or 0, and a hunk's words. Of the tables, `tables` is the first block's place. */
typedef struct {
    uint32_t number;
    size_t place, words;
} Judged;

static Judged judge(const uint8_t *s, size_t n, size_t p, size_t words, size_t tables, Tables dow, Tables c324) {
    if (n - p < 8 || (uint8_t)sum_by(dow, 0, s + p, 3) != s[p + 3] || p + 8 + get16(s + p + 1) > n)
        return (Judged){.number = 5, .place = p};
    size_t length = get16(s + p + 1);
    const uint8_t *payload = s + p + 8;
    if (s[p] == 0)
        return (Judged){.number = 7, .place = p};
    if (s[p] <= 3 && sum_by(c324, 0, payload, length) != get32(s + p + 4))
        return (Judged){.number = s[p] == 3 ? 12 : 6, .place = p};
    if (s[p] == 3 && !is_whole(payload, length))
        return (Judged){.number = 12, .place = p};
    if (s[p] == 1 && (length != 1280 || tables))
        return (Judged){.number = 8, .place = p};
    long w = s[p] == 2 ? check_hunk(payload, length, words) : 0;
    return w < 0 ? (Judged){.number = 9, .place = p + 8 + (size_t)(-1 - w)} : (Judged){.words = w};
}

static uint32_t judge_header(const uint8_t *s, size_t n, Tables dow) {
    if (n < 32 || n > IMAGE_LIMIT)
        return 1;
    if (s[0] != 0x4C || s[1] != 0x54 || s[2] != 0x4F)
        return 2;
    return s[3] != 1 ? 3 : (uint8_t)sum_by(dow, 0, s, 31) != s[31] ? 4 : 0;
}

/* The pass that checks: the refusal, or where the tables are, and the blocks and words. */
typedef struct {
    uint32_t number;
    size_t place, tables, blocks, words;
} Checked;

static Checked check(const uint8_t *s, size_t n, size_t words) {
    Tables dow, c324;
    make_tables(DOW, dow);
    make_tables(C324, c324);
    Checked r = {.number = judge_header(s, n, dow)};
    if (r.number)
        return r;
    for (size_t p = 32; p < n && s[p] != 0xFF; p += 8 + get16(s + p + 1)) {
        Judged j = judge(s, n, p, words, r.tables, dow, c324);
        if (j.number)
            return (Checked){.number = j.number, .place = j.place};
        if (s[p] == 1)
            r.tables = p;
        r.words += j.words;
        r.blocks++;
    }
    return r.tables ? r : (Checked){.number = 8, .place = n};
}

Loading c_load(const uint8_t *s, size_t n, uint16_t *ram, size_t words, size_t flash_words) {
    if (words > LENT_LIMIT)
        words = LENT_LIMIT;
    Checked k = check(s, n, words);
    if (k.number)
        return refused_load(k.number, k.place);
    Loading r = {.blocks = k.blocks, .words = k.words, .cartridge = cartridge_of(s + k.tables + 8)};
    int refused = not_had(s + 4, &r.cartridge, words, flash_words);
    if (refused)
        return refused_load(refused, 0);
    r.cartridge.jlp = fresh_jlp(s[6] & 3, flash_size(s + 4));
    static const int field[5] = {0, 2, 4, 6, 10};
    for (int i = 0; i < 5; i++)
        r.compat[i] = s[4 + field[i] / 8] >> field[i] % 8 & 3;
    if ((s[5] & 3) == 0)
        r.compat[4] = NOT_STATED;
    for (size_t p = 32; p < n && s[p] != 0xFF; p += 8 + get16(s + p + 1))
        if (s[p] == 2)
            store_hunk(s + p + 8, get16(s + p + 1), ram);
    return r;
}

/* ---- labels: an image is judged as a load of the whole RAM would, then the texts are gone through ---- */

/* A load's refusals for a RAM of 524,288 words and a flash that fits. */
static Checked check_for_desk(const uint8_t *s, size_t n) {
    Checked k = check(s, n, LENT_LIMIT);
    if (k.number)
        return k;
    Cartridge c = cartridge_of(s + k.tables + 8);
    int refused = not_fit(s + 4, &c, LENT_LIMIT);
    return refused ? (Checked){.number = refused} : k;
}

/* The sub-record of the n-th text with a tag, where *left is n; else how many are left to find. */
static const uint8_t *text_of(const uint8_t *s, size_t n, uint8_t tag, size_t *left) {
    for (size_t i = 0; i < n; i += 2 + s[i + 1])
        if (s[i] == tag && --*left == 0)
            return s + i;
    return NULL;
}

static Finding found(uint32_t file, const uint8_t *s, const uint8_t *record) {
    size_t from = record + 2 - s;
    return (Finding){.file = file, .from = from, .to = from + record[1]};
}

Finding c_find(const uint8_t *label, size_t nlabel, const uint8_t *s, size_t n, uint8_t tag, size_t which) {
    Checked k = check_for_desk(s, n);
    if (k.number)
        return (Finding){.number = k.number, .place = k.place};
    if (!is_whole(label, nlabel))
        return (Finding){.number = 12};
    if (tag > 0x0F || which == 0)
        return (Finding){0};
    size_t left = which;
    const uint8_t *record = text_of(label, nlabel, tag, &left);
    if (record)
        return found(1, label, record);
    left = which;
    for (size_t p = 32; p < n && s[p] != 0xFF; p += 8 + get16(s + p + 1))
        if (s[p] == 3 && (record = text_of(s + p + 8, get16(s + p + 1), tag, &left)))
            return found(2, s, record);
    return (Finding){0};
}

/* ---- salvage: a pass that judges, then one that copies what is kept ---- */

static bool is_dropped(uint8_t type, uint32_t number) {
    return type == 2 && (number == 6 || number == 9);
}

Salvaging c_salvage(const uint8_t *s, size_t n, uint8_t *out, size_t room) {
    Tables dow, c324;
    make_tables(DOW, dow);
    make_tables(C324, c324);
    uint8_t drops[IMAGE_LIMIT / 64 + 1] = {0}; /* a bit a block: no block has less than eight bytes */
    size_t tables = 0, blocks = 0, p;
    Salvaging r = {.number = judge_header(s, n, dow), .length = 32};
    if (r.number)
        return (Salvaging){.number = r.number};
    for (p = 32; p < n && s[p] != 0xFF; p += 8 + get16(s + p + 1), blocks++) {
        Judged j = judge(s, n, p, LENT_LIMIT, tables, dow, c324);
        if (j.number == 5)
            break;
        if (is_dropped(s[p], j.number)) {
            drops[blocks / 8] |= 1 << blocks % 8;
            r.dropped++;
            continue;
        }
        if (j.number)
            return (Salvaging){.number = j.number, .place = j.place};
        if (s[p] == 1)
            tables = p;
        r.length += 8 + get16(s + p + 1);
        r.kept++;
    }
    if (!tables)
        return (Salvaging){.number = 8, .place = n};
    Cartridge c = cartridge_of(s + tables + 8);
    int refused = not_fit(s + 4, &c, LENT_LIMIT);
    if (refused)
        return (Salvaging){.number = refused};
    r.stopped = p < n && s[p] != 0xFF;
    r.stop = r.stopped ? p : 0;
    bool closed = r.length < IMAGE_LIMIT;
    r.length += closed;
    if (r.length > room)
        return (Salvaging){.number = 29, .length = r.length};
    uint8_t *to = out + 32;
    memcpy(out, s, 32);
    p = 32;
    for (size_t i = 0; i < blocks; i++) {
        size_t length = 8 + get16(s + p + 1);
        if (!(drops[i / 8] >> i % 8 & 1)) {
            memcpy(to, s + p, length);
            to += length;
        }
        p += length;
    }
    if (closed)
        *to = 0xFF;
    return r;
}

size_t c_drops(const uint8_t *s, size_t n, size_t *places, size_t room) {
    Tables dow, c324;
    make_tables(DOW, dow);
    make_tables(C324, c324);
    size_t count = 0;
    for (size_t p = 32; p < n && s[p] != 0xFF; p += 8 + get16(s + p + 1)) {
        Judged j = judge(s, n, p, LENT_LIMIT, 0, dow, c324);
        if (j.number == 5)
            break;
        if (!is_dropped(s[p], j.number))
            continue;
        if (count < room)
            places[count] = p;
        count++;
    }
    return count;
}

/* ---- the writer: header, tables, a label's block, a hunk for each marked paragraph, end ---- */

enum { TABLES_BYTES = 1288, MOST_WORDS = 62, BLOCK_LIMIT = 65535 };

static void put16(uint8_t *s, uint16_t w) {
    s[0] = w % 256;
    s[1] = w / 256;
}

static void put32(uint8_t *s, uint32_t w) {
    put16(s, w % 65536);
    put16(s + 2, w / 65536);
}

/* The header of a block, before the payload that stands behind it. */
static void frame(uint8_t *block, uint8_t type, size_t length, Tables dow, Tables c324) {
    block[0] = type;
    put16(block + 1, length);
    block[3] = sum_by(dow, 0, block, 3);
    put32(block + 4, sum_by(c324, 0, block + 8, length));
}

/* The forms of a data block, by what is added to the number of words for a start byte. */
enum { BYTES = 0, DECLES = 0x3F, WORDS = 0xBF };

static size_t data_size(int form, int n) {
    return form == BYTES ? 2 + n : form == DECLES ? 2 + (n + 2) / 4 + n : 1 + 2 * n;
}

/* The smallest form that can carry n words: the last may be any; on a tie 16-bit before 10-bit before 8-bit. */
static int form_of(const uint16_t *words, int n) {
    uint16_t top = 0;
    for (int j = 0; j < n - 1; j++)
        top = top < words[j] ? words[j] : top;
    int form = WORDS;
    if (top < 0x400 && data_size(DECLES, n) < data_size(form, n))
        form = DECLES;
    if (top < 0x100 && data_size(BYTES, n) < data_size(form, n))
        form = BYTES;
    return form;
}

static uint8_t *put_decles(uint8_t *s, const uint16_t *words, int n) {
    int j = 0;
    for (; j + 4 <= n; j += 4, s += 5) {
        s[0] = words[j] / 256 % 4 * 64 + words[j + 1] / 256 % 4 * 16 + words[j + 2] / 256 % 4 * 4 + words[j + 3] / 256 % 4;
        for (int k = 0; k < 4; k++)
            s[1 + k] = words[j + k];
    }
    if (j == n)
        return s;
    uint8_t *upper = s++;
    *upper = 0;
    for (int k = 0; j < n; j++, k++) {
        *upper += words[j] / 256 % 4 << (6 - 2 * k);
        *s++ = words[j];
    }
    return s;
}

static uint8_t *put_data(uint8_t *s, const uint16_t *words, int n) {
    int form = form_of(words, n);
    *s++ = form + n;
    if (form == BYTES)
        for (int j = 0; j < n - 1; j++)
            *s++ = words[j];
    else if (form == DECLES)
        s = put_decles(s, words, n - 1);
    else
        for (int j = 0; j < n - 1; j++, s += 2)
            put16(s, words[j]);
    put16(s, words[n - 1]);
    return s + 2;
}

static int cut_at(int i) {
    return 256 - i < MOST_WORDS ? 256 - i : MOST_WORDS;
}

static size_t write_image(uint8_t *out, const uint8_t *flags, const uint8_t *uid, const Cartridge *c, const uint8_t *label, size_t nlabel, const uint16_t *ram,
                          const bool *marks) {
    Tables dow, c324;
    make_tables(DOW, dow);
    make_tables(C324, c324);
    memcpy(out, "LTO\1", 4);
    memcpy(out + 4, flags, 16);
    memcpy(out + 20, uid, 8);
    memset(out + 28, 0, 3);
    out[31] = sum_by(dow, 0, out, 31);
    uint8_t *to = out + 32;
    for (int i = 0; i < 256; i++) {
        put16(to + 8 + 2 * i, c->initial_mapping[i]);
        to[8 + 512 + i] = c->initial_permissions[i];
        put16(to + 8 + 768 + 2 * i, c->flips[i]);
    }
    frame(to, 1, 1280, dow, c324);
    to += TABLES_BYTES;
    if (nlabel) {
        memcpy(to + 8, label, nlabel);
        frame(to, 3, nlabel, dow, c324);
        to += 8 + nlabel;
    }
    for (uint32_t p = 0; p < 2048; p++) {
        if (!marks[p])
            continue;
        uint8_t *s = to + 8;
        put16(s, p % 256 * 256);
        s[2] = p / 256;
        s += 3;
        for (int i = 0; i < 256; i += MOST_WORDS)
            s = put_data(s, ram + 256 * p + i, cut_at(i));
        frame(to, 2, s - to - 8, dow, c324);
        to = s;
    }
    *to++ = 0xFF;
    return to - out;
}

static size_t length_of(const uint16_t *ram, const bool *marks) {
    size_t length = 32 + TABLES_BYTES + 1;
    for (int p = 0; p < 2048; p++) {
        if (!marks[p])
            continue;
        length += 8 + 3;
        for (int i = 0; i < 256; i += MOST_WORDS)
            length += data_size(form_of(ram + 256 * p + i, cut_at(i)), cut_at(i));
    }
    return length;
}

Writing c_write_image(const uint8_t *flags, const uint8_t *uid, const Cartridge *c, const uint16_t *ram, size_t words, const bool *marks, uint8_t *out, size_t room) {
    if (words > LENT_LIMIT)
        words = LENT_LIMIT;
    int refused = not_fit(flags, c, words);
    if (refused)
        return (Writing){.number = refused};
    for (size_t p = 0; p < 2048; p++)
        if (marks[p] && 256 * p + 256 > words)
            return (Writing){.number = 9, .place = p};
    size_t length = length_of(ram, marks);
    if (length > IMAGE_LIMIT)
        return (Writing){.number = 1};
    if (length > room)
        return (Writing){.number = 29, .length = length};
    return (Writing){.length = write_image(out, flags, uid, c, NULL, 0, ram, marks)};
}

/* ---- the builder: lines, rules, layout, image ---- */

/* So many pages at most are laid out, and then more than LENT_LIMIT words are refused. */
enum { MOST_LINES = 128, MOST_PAGES = 139, BIN_LIMIT = 524288 };

typedef enum { ROM, PAGED, RAM16, RAM8, NOBODY } Kind; /* NOBODY: of a paragraph that no line has */

typedef struct {
    Kind kind;
    uint32_t lo, hi, address, page; /* BIN words lo to hi at the address; of RAM, lo and hi are addresses */
    size_t line;
} Line;

typedef struct {
    const uint8_t *s;
    size_t n;
} Token;

static Building refused_build(uint32_t number, size_t place) {
    return (Building){.number = number, .place = place};
}

/* The tokens of a line up to its comment: `-`, `=`, and runs of other bytes that are not blank. */
static size_t tokens_of(const uint8_t *s, size_t n, Token *t, size_t most) {
    size_t count = 0;
    for (size_t i = 0; i < n && s[i] != ';';) {
        if (s[i] == ' ' || s[i] == '\t') {
            i++;
            continue;
        }
        size_t from = i++;
        if (s[from] != '-' && s[from] != '=')
            while (i < n && !memchr(" \t;-=", s[i], 5))
                i++;
        if (count < most)
            t[count] = (Token){s + from, i - from};
        count++;
    }
    return count;
}

static bool is(Token t, const char *text) {
    return t.n == strlen(text) && !memcmp(t.s, text, t.n);
}

static int digit(uint8_t b) {
    return b >= '0' && b <= '9' ? b - '0' : b >= 'A' && b <= 'F' ? b - 'A' + 10 : b >= 'a' && b <= 'f' ? b - 'a' + 10 : -1;
}

static bool number(Token t, size_t most, uint32_t *to) {
    if (t.n < 2 || t.n > most + 1 || t.s[0] != '$')
        return false;
    *to = 0;
    for (size_t i = 1; i < t.n; i++) {
        if (digit(t.s[i]) < 0)
            return false;
        *to = *to * 16 + digit(t.s[i]);
    }
    return true;
}

static bool entry_of(const Token *t, size_t n, int section, Line *l) {
    if (n < 5 || !is(t[1], "-") || !is(t[3], "="))
        return false;
    if (section == 2) {
        l->kind = n == 6 && is(t[5], "8") ? RAM8 : RAM16;
        l->address = 0;
        return n == 6 && number(t[0], 4, &l->lo) && number(t[2], 4, &l->hi) && is(t[4], "RAM") && (is(t[5], "16") || is(t[5], "8"));
    }
    l->kind = n == 5 ? ROM : PAGED;
    if (n == 7) {
        if (!is(t[5], "PAGE") || t[6].n != 1 || digit(t[6].s[0]) < 0)
            return false;
        l->page = digit(t[6].s[0]);
    }
    return (n == 5 || n == 7) && number(t[0], 5, &l->lo) && number(t[2], 5, &l->hi) && number(t[4], 4, &l->address);
}

/* Refusals 22 to 24; the lines and how many. */
static Building lines_of(const uint8_t *cfg, size_t n, Line *lines, size_t *count) {
    if (n > CFG_LIMIT)
        return refused_build(22, 0);
    size_t line = 1, extra = 0;
    for (size_t i = 0; i < n; i++) {
        bool fine = (cfg[i] >= 0x20 && cfg[i] <= 0x7E) || cfg[i] == '\t' || cfg[i] == '\n' || (cfg[i] == '\r' && i + 1 < n && cfg[i + 1] == '\n');
        if (!fine)
            return refused_build(22, line);
        line += cfg[i] == '\n';
    }
    int section = 0;
    *count = 0;
    line = 1;
    for (size_t i = 0; i < n; line++) {
        const uint8_t *end = memchr(cfg + i, '\n', n - i);
        size_t to = end ? (size_t)(end - cfg) : n;
        size_t text = to > i && cfg[to - 1] == '\r' ? to - 1 : to;
        Token t[8];
        size_t k = tokens_of(cfg + i, text - i, t, 8);
        i = to + 1;
        if (k == 0)
            continue;
        if (k == 1 && (is(t[0], "[mapping]") || is(t[0], "[memattr]"))) {
            section = is(t[0], "[mapping]") ? 1 : 2;
            continue;
        }
        Line l = {.line = line};
        if (section == 0 || !entry_of(t, k, section, &l))
            return refused_build(23, line);
        if (*count < MOST_LINES)
            lines[(*count)++] = l;
        else if (!extra)
            extra = line;
    }
    if (*count == 0)
        return refused_build(24, 0);
    return extra ? refused_build(24, extra) : refused_build(0, 0);
}

static uint32_t first_address(const Line *l) {
    return l->kind == RAM16 || l->kind == RAM8 ? l->lo : l->address;
}

static uint32_t last_address(const Line *l) {
    return first_address(l) + (l->hi - l->lo);
}

static bool out_of_range(const Line *l, size_t words) {
    if (l->lo > l->hi)
        return true;
    return (l->kind == ROM || l->kind == PAGED) && (l->hi >= words || last_address(l) > 0xFFFF);
}

static bool wrong_shape(const Line *l) {
    uint32_t a = first_address(l), e = last_address(l);
    if (a < 0x500 || (a <= 0x1FFF && e >= 0x1000) || (a <= 0x3FFF && e >= 0x3000))
        return true;
    if (l->kind == PAGED)
        return !(a == 0x4800 ? e == 0x4FFF : a % 4096 == 0 && e == a + 4095 && a / 4096 != 4);
    return a % 256 != 0 || e % 256 != 255;
}

/* Which line owns a paragraph, and which a page of a chapter; 0 for none, else 1 + its index. */
typedef struct {
    uint8_t paragraph[256], page[16][16];
} Owners;

/* Refusals 25 to 27. */
static Building claims_of(const Line *lines, size_t count, size_t words, Owners *o) {
    for (size_t i = 0; i < count; i++) {
        if (out_of_range(&lines[i], words))
            return refused_build(25, lines[i].line);
        if (wrong_shape(&lines[i]))
            return refused_build(26, lines[i].line);
    }
    memset(o, 0, sizeof *o);
    for (size_t i = 0; i < count; i++) {
        const Line *l = &lines[i];
        uint32_t a = first_address(l) / 256, e = last_address(l) / 256;
        if (l->kind == PAGED) {
            if (o->page[a / 16][l->page])
                return refused_build(27, l->line);
            o->page[a / 16][l->page] = i + 1;
            continue;
        }
        for (uint32_t p = a; p <= e; p++) {
            if (o->paragraph[p])
                return refused_build(27, l->line);
            o->paragraph[p] = i + 1;
        }
    }
    return refused_build(0, 0);
}

static int first_k(int x) {
    return x == 4 ? 8 : 0;
}

static bool is_rom(const Line *lines, const Owners *o, int p) {
    return o->paragraph[p] && lines[o->paragraph[p] - 1].kind == ROM;
}

static bool has_pages(const Owners *o, int x) {
    for (int y = 0; y < 16; y++)
        if (o->page[x][y])
            return true;
    return false;
}

/* Refusal 28; whether plain ROM covers the flippable range of each chapter. */
static Building covers_of(const Line *lines, const Owners *o, bool *covers) {
    for (int x = 0; x < 16; x++) {
        int rom = 0, plain = 0;
        for (int k = first_k(x); k < 16; k++) {
            rom += is_rom(lines, o, 16 * x + k);
            plain += o->paragraph[16 * x + k] != 0;
        }
        covers[x] = rom == 16 - first_k(x);
        if (has_pages(o, x) && (plain != rom || (rom != 0 && !covers[x])))
            return refused_build(28, x);
    }
    return refused_build(0, 0);
}

/* A paragraph of a line, from the BIN into the RAM image; without a BIN the mark alone. */
static void lay(const Line *l, uint32_t p, uint32_t at, const uint8_t *bin, uint16_t *ram, bool *marks) {
    marks[at] = true;
    if (l->kind == RAM16 || l->kind == RAM8 || !bin)
        return;
    const uint8_t *from = bin + 2 * (l->lo + (p - l->address / 256) * 256);
    for (int i = 0; i < 256; i++)
        ram[256 * at + i] = from[2 * i] << 8 | from[2 * i + 1];
}

static uint8_t permission_of(Kind k) {
    return k == RAM16 ? 3 : k == RAM8 ? 7 : 1;
}

/* The tables of the cartridge, and its words with their marks; answers the number of pages. */
static uint32_t lay_out(const Line *lines, const Owners *o, const bool *covers, const uint8_t *bin, Cartridge *c, uint16_t *ram, bool *marks) {
    uint32_t pages = 0;
    memset(c, 0, sizeof *c);
    for (int x = 0; x < 16; x++) {
        bool plain = false, paged = has_pages(o, x);
        for (int k = 0; k < 16; k++) {
            int p = 16 * x + k, owner = o->paragraph[p];
            if (!owner)
                continue;
            plain = true;
            lay(&lines[owner - 1], p, 16 * pages + k, bin, ram, marks);
            c->initial_mapping[p] = 16 * pages + k;
            c->initial_permissions[p] = permission_of(lines[owner - 1].kind);
        }
        uint32_t page = pages;
        pages += plain;
        if (!paged)
            continue;
        for (int y = 0; y < 16; y++) {
            int owner = o->page[x][y];
            c->flips[16 * x + y] = owner ? 16 * pages + 9 : covers[x] ? 16 * page + 9 : 8;
            if (!owner)
                continue;
            for (int k = first_k(x); k < 16; k++)
                lay(&lines[owner - 1], 16 * x + k, 16 * pages + k, bin, ram, marks);
            pages++;
        }
        for (int k = first_k(x); k < 16; k++) {
            c->initial_mapping[16 * x + k] = c->flips[16 * x] / 16 * 16 + k;
            c->initial_permissions[16 * x + k] = c->flips[16 * x] % 8;
        }
    }
    return pages;
}

Building c_build(const uint8_t *bin, size_t nbin, const uint8_t *cfg, size_t ncfg, const uint8_t *label, size_t nlabel, uint8_t *out, size_t room) {
    Line lines[MOST_LINES];
    Owners o;
    bool covers[16], marks[MOST_PAGES * 16] = {0};
    uint16_t ram[MOST_PAGES * 4096] = {0};
    Cartridge c;
    size_t count;
    if (nbin == 0 || nbin % 2 == 1 || nbin > BIN_LIMIT)
        return refused_build(21, 0);
    Building r = lines_of(cfg, ncfg, lines, &count);
    if (r.number == 0)
        r = claims_of(lines, count, nbin / 2, &o);
    if (r.number == 0)
        r = covers_of(lines, &o, covers);
    if (r.number != 0)
        return r;
    uint32_t pages = lay_out(lines, &o, covers, bin, &c, ram, marks);
    if (4096 * pages > LENT_LIMIT)
        return refused_build(20, 0);
    if (nlabel > BLOCK_LIMIT || !is_whole(label, nlabel))
        return refused_build(12, 0);
    size_t length = length_of(ram, marks) + (nlabel ? 8 + nlabel : 0);
    if (length > room)
        return (Building){.number = 29, .length = length};
    uint8_t flags[16] = {0x55, 0x05}, uid[8];
    put32(uid, c_crc32(bin, nbin));
    put32(uid + 4, c_crc32(cfg, ncfg));
    return (Building){.length = write_image(out, flags, uid, &c, label, nlabel, ram, marks), .needed = 4096 * pages};
}

/* ---- back to BIN and CFG: the plan behind the tables, its lines, and whether they build the tables and words again ---- */

/* A kind for each paragraph, or NOBODY; the pages; and the first Locutus page of each chapter. */
typedef struct {
    Kind kind[256];
    bool page[16][16];
    uint32_t base[16];
} Plan;

static Kind kind_of(int p, uint8_t permission) {
    if (p < 5 || p / 16 == 1 || p / 16 == 3)
        return NOBODY;
    return permission == 1 ? ROM : permission == 3 ? RAM16 : permission == 7 ? RAM8 : NOBODY;
}

/* The pages of chapter x, where it has any: entry 8 is that of an absent page, or else that of the plain page, which has words there. */
static uint32_t pages_of(const Cartridge *c, int x, const bool *named, Plan *q) {
    const uint16_t *row = c->flips + 16 * x;
    uint32_t base = q->base[x], absent = 16 * base + 9, used = 0, pages = 0;
    for (int y = 0; y < 16; y++) {
        absent = row[y] == 8 ? 8 : absent;
        used |= row[y];
    }
    if (!used || x < 2 || x == 3)
        return 0;
    size_t word = 256 * (16 * base + 8);
    bool under = absent != 8 && word < LENT_LIMIT && named[word];
    for (int k = first_k(x); k < 16; k++)
        q->kind[16 * x + k] = under ? ROM : NOBODY;
    for (int y = 0; y < 16; y++)
        pages += q->page[x][y] = row[y] != absent;
    return pages;
}

static void plan_of(const Cartridge *c, const bool *named, Plan *q) {
    uint32_t base = 0;
    memset(q->page, 0, sizeof q->page);
    for (int x = 0; x < 16; x++) {
        q->base[x] = base;
        for (int p = 16 * x; p < 16 * x + 16; p++)
            q->kind[p] = kind_of(p, c->initial_permissions[p]);
        base += pages_of(c, x, named, q);
        bool plain = false;
        for (int p = 16 * x; p < 16 * x + 16; p++)
            plain = plain || q->kind[p] != NOBODY;
        base += plain;
    }
}

/* The runs of ROM, or else of RAM, by address, behind `count` lines; up to a line more than a CFG may have. */
static size_t runs_of(const Plan *q, bool rom, Line *lines, size_t count, uint32_t *words) {
    for (uint32_t p = 0, end; p < 256 && count <= MOST_LINES; p = end) {
        Kind kind = q->kind[p];
        for (end = p + 1; end < 256 && q->kind[end] == kind;)
            end++;
        if (kind == NOBODY || (kind == ROM) != rom)
            continue;
        uint32_t n = 256 * (end - p), lo = rom ? *words : 256 * p;
        lines[count++] = (Line){.kind = kind, .lo = lo, .hi = lo + n - 1, .address = rom ? 256 * p : 0};
        *words += rom ? n : 0;
    }
    return count;
}

static size_t lines_for(const Plan *q, Line *lines, uint32_t *words) {
    *words = 0;
    size_t count = runs_of(q, true, lines, 0, words);
    for (uint32_t x = 0; x < 16; x++)
        for (uint32_t y = 0; y < 16 && count <= MOST_LINES; y++)
            if (q->page[x][y]) {
                uint32_t a = 16 * x + first_k(x), n = 4096 - 256 * first_k(x);
                lines[count++] = (Line){.kind = PAGED, .lo = *words, .hi = *words + n - 1, .address = 256 * a, .page = y};
                *words += n;
            }
    return runs_of(q, false, lines, count, words);
}

/* Whether the lines build these tables, and the words that are named are those of its paragraphs, in RAM zeros. */
static bool builds(const Line *lines, size_t count, const Cartridge *t, const uint16_t *ram, const bool *named) {
    Owners o;
    bool covers[16], marks[MOST_PAGES * 16] = {0}, all[256];
    Cartridge c;
    if (count == 0 || count > MOST_LINES || claims_of(lines, count, LENT_LIMIT, &o).number || covers_of(lines, &o, covers).number)
        return false;
    if (4096 * lay_out(lines, &o, covers, NULL, &c, NULL, marks) > LENT_LIMIT || memcmp(c.initial_mapping, t->initial_mapping, sizeof c.initial_mapping)
        || memcmp(c.flips, t->flips, sizeof c.flips) || memcmp(c.initial_permissions, t->initial_permissions, sizeof c.initial_permissions))
        return false;
    for (int p = 0; p < 2048; p++) {
        memset(all, marks[p], sizeof all);
        if (memcmp(named + 256 * p, all, sizeof all))
            return false;
    }
    for (int p = 0; p < 256; p++)
        for (int i = 0; i < 256 && c.initial_permissions[p] & WRITE; i++)
            if (ram[256 * c.initial_mapping[p] + i])
                return false;
    return true;
}

static uint8_t *put_text(uint8_t *s, const char *text) {
    size_t n = strlen(text);
    memcpy(s, text, n);
    return s + n;
}

static uint8_t *put_hex(uint8_t *s, uint32_t x, int digits) {
    for (int i = digits - 1; i >= 0; i--)
        *s++ = "0123456789ABCDEF"[x >> 4 * i & 15];
    return s;
}

/* The text of a CFG of these lines; answers its length. */
static size_t text_of_lines(const Line *lines, size_t count, uint8_t *cfg) {
    uint8_t *s = cfg;
    for (size_t i = 0; i < count; i++) {
        const Line *l = &lines[i];
        bool is_ram = l->kind == RAM16 || l->kind == RAM8, first = i == 0 || (is_ram && lines[i - 1].kind <= PAGED);
        if (first)
            s = put_text(s, is_ram ? "[memattr]\n" : "[mapping]\n");
        *s++ = '$';
        s = put_hex(s, l->lo, is_ram ? 4 : 5);
        s = put_text(s, " - $");
        s = put_hex(s, l->hi, is_ram ? 4 : 5);
        s = put_text(s, is_ram ? l->kind == RAM16 ? " = RAM 16" : " = RAM 8" : " = $");
        if (!is_ram)
            s = put_hex(s, l->address, 4);
        if (l->kind == PAGED)
            s = put_hex(put_text(s, " PAGE "), l->page, 1);
        *s++ = '\n';
    }
    return s - cfg;
}

/* The words of the lines, from where the layout has them. */
static void put_bin(const Line *lines, size_t count, const Plan *q, const Cartridge *c, const uint16_t *ram, uint8_t *bin) {
    for (size_t i = 0; i < count && lines[i].kind <= PAGED; i++) {
        const Line *l = &lines[i];
        for (uint32_t p = l->address / 256; p <= last_address(l) / 256; p++) {
            uint32_t page = l->kind == ROM ? q->base[p / 16] : c->flips[p / 16 * 16 + l->page] / 16;
            const uint16_t *from = ram + 4096 * page + 256 * (p % 16);
            for (int k = 0; k < 256; k++, bin += 2) {
                bin[0] = from[k] >> 8;
                bin[1] = from[k];
            }
        }
    }
}

Unbuilding c_unbuild(const uint8_t *s, size_t n, uint8_t *bin, size_t nbin, uint8_t *cfg, size_t ncfg) {
    Checked k = check_for_desk(s, n);
    if (k.number)
        return (Unbuilding){.number = k.number, .place = k.place};
    uint16_t ram[LENT_LIMIT];
    bool named[LENT_LIMIT] = {0};
    for (size_t p = 32; p < n && s[p] != 0xFF; p += 8 + get16(s + p + 1))
        if (s[p] == 2) {
            size_t words = store_hunk(s + p + 8, get16(s + p + 1), ram);
            memset(named + get16(s + p + 8) + ((size_t)s[p + 10] << 16), true, words);
        }
    Cartridge c = cartridge_of(s + k.tables + 8);
    Plan q;
    Line lines[MOST_LINES + 1];
    uint32_t words;
    plan_of(&c, named, &q);
    size_t count = lines_for(&q, lines, &words);
    if (s[6] & 3 || !builds(lines, count, &c, ram, named))
        return (Unbuilding){.number = 31};
    Unbuilding r = {.bin = words ? 2 * words : 2};
    if (r.bin > BIN_LIMIT)
        return (Unbuilding){.number = 32};
    uint8_t text[4096];
    r.cfg = text_of_lines(lines, count, text);
    if (r.bin > nbin || r.cfg > ncfg) {
        r.number = 29;
        return r;
    }
    memset(bin, 0, 2);
    put_bin(lines, count, &q, &c, ram, bin);
    memcpy(cfg, text, r.cfg);
    return r;
}
