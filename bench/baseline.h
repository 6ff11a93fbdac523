/* The C side of the comparison: the algorithms of the proved crates, written as C is usually written. */
#ifndef BASELINE_H
#define BASELINE_H
#include <stdbool.h>
#include <stddef.h>
#include <stdint.h>

#define LENT_LIMIT 524288
#define IMAGE_LIMIT 2097152
#define SILENCE 65536
#define CFG_LIMIT 16384

uint8_t c_dowcrc(const uint8_t *s, size_t n);
uint32_t c_crc324(const uint8_t *s, size_t n);
uint32_t c_crc32(const uint8_t *s, size_t n);

typedef struct {
    uint16_t field, on, operands[12], first, second, crc, sectors, addr, row;
} Jlp;

typedef struct {
    uint16_t initial_mapping[256];
    uint8_t initial_permissions[256];
    uint16_t mapping[256];
    uint8_t permissions[256];
    uint16_t flips[256];
    uint16_t readable;
    Jlp jlp;
} Cartridge;

uint32_t c_read(const Cartridge *c, const uint16_t *ram, size_t words, uint16_t at);
uint8_t c_write(Cartridge *c, uint16_t *ram, size_t words, uint16_t *flash, size_t flash_words, uint16_t at, uint16_t value);
void c_reset(Cartridge *c);

/* The same with the cartridge by value: a write and a reset answer the next one. */
typedef struct {
    Cartridge cartridge;
    uint8_t assigned;
} Written;

uint32_t c_read_by_value(Cartridge c, const uint16_t *ram, size_t words, uint16_t at);
Written c_write_by_value(Cartridge c, uint16_t *ram, size_t words, uint16_t *flash, size_t flash_words, uint16_t at, uint16_t value);
Cartridge c_reset_by_value(Cartridge c);

void c_reads(const Cartridge *c, const uint16_t *ram, size_t words, const uint16_t *at, size_t n, uint32_t *out);
/* assigned[i]: how many mapping entries write i assigned. */
void c_writes(Cartridge *c, uint16_t *ram, size_t words, uint16_t *flash, size_t flash_words, const uint16_t *at, const uint16_t *value, size_t n, uint8_t *assigned);

/* What running a list answers; at 29 length is how many answers there would be. */
typedef struct {
    uint32_t number;
    size_t place, lines, length;
} Ran;

Ran c_run(const uint8_t *list, size_t n, size_t limit, Cartridge *c, uint16_t *ram, size_t words, uint16_t *flash, size_t flash_words, uint32_t *out, size_t room);

typedef struct {
    uint32_t number;
    size_t place, blocks, words;
    uint8_t compat[5];
    Cartridge cartridge;
} Loading;

size_t c_flash_words(const uint8_t *image, size_t n);
Loading c_load(const uint8_t *image, size_t n, uint16_t *ram, size_t words, size_t flash_words);

/* Where a text stands: file 1 is the label, 2 the image, 0 none. */
typedef struct {
    uint32_t number, file;
    size_t place, from, to;
} Finding;

Finding c_find(const uint8_t *label, size_t nlabel, const uint8_t *image, size_t n, uint8_t tag, size_t which);

typedef struct {
    uint32_t number, stopped;
    size_t place, length, kept, dropped, stop;
} Salvaging;

Salvaging c_salvage(const uint8_t *image, size_t n, uint8_t *out, size_t room);
size_t c_drops(const uint8_t *image, size_t n, size_t *places, size_t room);

typedef struct {
    uint32_t number;
    size_t place, length;
} Writing;

/* The tables as loaded are written, and the marked ones of 2,048 paragraphs. */
Writing c_write_image(const uint8_t *flags, const uint8_t *uid, const Cartridge *c, const uint16_t *ram, size_t words, const bool *marks, uint8_t *out, size_t room);

typedef struct {
    uint32_t number;
    size_t place, length, needed;
} Building;

Building c_build(const uint8_t *bin, size_t nbin, const uint8_t *cfg, size_t ncfg, const uint8_t *label, size_t nlabel, uint8_t *out, size_t room);

/* The lengths of what is written; at 29 those that are needed. */
typedef struct {
    uint32_t number;
    size_t place, bin, cfg;
} Unbuilding;

Unbuilding c_unbuild(const uint8_t *image, size_t n, uint8_t *bin, size_t nbin, uint8_t *cfg, size_t ncfg);
#endif
