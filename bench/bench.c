/* Measures the proved functions beside the C baseline: the same inputs, the same answers, the best of runs that alternate. */
#include "baseline.h"
#include "../include/luigi.h"
typedef LuigiLoaded Loaded;
typedef LuigiBuilt Built;
typedef LuigiActive Active;
#include <stdbool.h>
#include <stdio.h>
#include <stdlib.h>
#include <string.h>
#include <time.h>

enum { MIB = 1048576, BIN_BYTES = 524288, ROOM = IMAGE_LIMIT, WORDS = LENT_LIMIT, BLOCK = 65535 };
enum { SECTORS = 8, FLASH = 768 * SECTORS }; /* the flash of the accelerated cartridge */
enum { LINES = 1000000, LIST = 26 * LINES }; /* the lines of a list, and room for its text */
enum { SCRIPT = 20000, TIMES = 500, SAVES = 50, RESETS = 1000000, CALLS = 1000000 }; /* 10 million accesses: 500 times a script of 20,000; of saves a million */

/* ---- inputs, from one seed ---- */

static uint8_t bytes[MIB], bin[BIN_BYTES], narrow[BIN_BYTES], cfg[CFG_LIMIT];
static size_t cfg_length;
static uint8_t image[ROOM], packed[ROOM], once[ROOM]; /* once: with 55 pages, each word of the BIN once */
static size_t image_length, packed_length, once_length;
static uint16_t read_at[SCRIPT], write_at[SCRIPT], value[SCRIPT];
static uint16_t switch_at[SCRIPT], switch_value[SCRIPT], jlp_at[SCRIPT], operand_at[SCRIPT], flash_at[SCRIPT], flash_value[SCRIPT];

static uint32_t random_bits(void) {
    static uint32_t x = 12345;
    x ^= x << 13;
    x ^= x >> 17;
    return x ^= x << 5;
}

/* ROM and RAM in twelve chapters, and so many pages in nine of them. With 59 of them 64 lines and 71 pages of 4,096 words. */
static const int paged[9] = {2, 5, 6, 7, 11, 12, 13, 14, 15};

static void make_cfg(int pages) {
    char *s = (char *)cfg;
    s += sprintf(s, "[memattr]\n$8000 - $9FFF = RAM 16\n$A000 - $AFFF = RAM 8\n");
    s += sprintf(s, "[mapping]\n$00000 - $00FFF = $2000\n$01000 - $03FFF = $5000\n$04000 - $08FFF = $B000\n");
    for (int i = 0; i < pages; i++) {
        unsigned lo = (9 + i) % 64 * 4096;
        s += sprintf(s, "$%05X - $%05X = $%X000 PAGE %X\n", lo, lo + 4095, paged[i % 9], i / 9);
    }
    cfg_length = s - (char *)cfg;
}

/* Reads anywhere; writes anywhere, and every sixteenth asks for a page; the same, where every sixteenth switches a half-page
   of chapters 8 to 10; in JLP RAM; to the operands of the four multiplies; and to the flash's registers, by threes an address, a row and a
   command: a save after an erase, or a row read back. */
static const uint16_t keys[3] = {0xC0DE, 0xDEC0, 0xBEEF};

static void make_scripts(void) {
    for (int i = 0; i < SCRIPT; i++) {
        jlp_at[i] = 0x8040 + random_bits() % 0x1F40;
        operand_at[i] = 0x9F80 + random_bits() % 8;
        flash_at[i] = i % 3 == 0 ? 0x8025 : i % 3 == 1 ? 0x8026 : 0x802D + random_bits() % 3;
        flash_value[i] = i % 3 == 0 ? 0x8040 + random_bits() % 0x1EE1 : i % 3 == 1 ? random_bits() % (8 * SECTORS) : keys[flash_at[i] - 0x802D];
        switch_at[i] = random_bits();
        switch_value[i] = random_bits();
        if (i % 16 == 0)
            switch_at[i] = 0x40 + random_bits() % 2 * 0x10 + 8 + random_bits() % 3;
        read_at[i] = random_bits();
        write_at[i] = random_bits();
        value[i] = random_bits();
        if (i % 16 == 0) {
            int x = paged[random_bits() % 9];
            write_at[i] = x * 4096 + 0xFFF;
            value[i] = x * 4096 + 0xA50 + random_bits() % 16;
        }
    }
}

/* A list of accesses: by turns a read and a write anywhere, every sixteenth line a page request, every thousandth a reset. */
static uint8_t list[LIST];
static size_t list_length;

static void make_list(void) {
    char *s = (char *)list;
    for (int i = 0; i < LINES; i++) {
        int k = i % SCRIPT;
        if (i % 1000 == 999)
            s += sprintf(s, "op=x\n");
        else if (i % 2)
            s += sprintf(s, "op=r addr=%04X\n", read_at[k]);
        else
            s += sprintf(s, "op=w addr=%04X value=%04x\n", write_at[k], value[k]);
    }
    list_length = s - (char *)list;
}

static void put(uint8_t *s, uint32_t x, int n) {
    for (int i = 0; i < n; i++)
        s[i] = x >> 8 * i;
}

/* A data block of n words: the start byte, the bytes of all words but one, and a 16-bit word. */
static uint8_t *put_data(uint8_t *s, uint8_t start, int body) {
    *s++ = start;
    for (int i = 0; i < body + 2; i++)
        *s++ = random_bits();
    return s;
}

static uint8_t *close_block(uint8_t *s, uint8_t type, uint8_t *end) {
    s[0] = type;
    put(s + 1, end - s - 8, 2);
    s[3] = c_dowcrc(s, 3);
    put(s + 4, c_crc324(s + 8, end - s - 8), 4);
    return end;
}

/* The image's header and tables, then 127 hunks of 4,096 words, by turns in 10-bit and in 8-bit data blocks. */
static void make_packed(void) {
    memcpy(packed, image, 1320);
    uint8_t *s = packed + 1320;
    for (int h = 0; h < 127; h++) {
        uint8_t *payload = s + 8, *end = payload + 3;
        put(payload, 4096 * h, 3);
        for (int i = 0; i < (h % 2 ? 65 : 32); i++)
            end = h % 2 ? put_data(end, 0x3F, 62) : put_data(end, 0xBF, 159);
        if (h % 2)
            end = put_data(end, 0x01, 0);
        s = close_block(s, 2, end);
    }
    *s++ = 0xFF;
    packed_length = s - packed;
}

/* The image with a metadata block behind its tables, as full as one can be: texts of up to 31 bytes with all tags but the last, and a
   last one with that. The label has the texts but the last, so that a lookup of it goes through both files. */
static uint8_t label[BLOCK], labelled[ROOM], shelf[ROOM];
static size_t label_length, labelled_length, shelf_length;

static void make_label(void) {
    uint8_t *s = label;
    while (label + BLOCK - s > 64) {
        s[0] = random_bits() % 15;
        s[1] = random_bits() % 32;
        for (int i = 0; i < s[1]; i++)
            s[2 + i] = random_bits();
        s += 2 + s[1];
    }
    label_length = s - label;
    uint8_t *block = labelled + 1320, *last = block + 8 + label_length;
    memcpy(labelled, image, 1320);
    memcpy(block + 8, label, label_length);
    last[0] = 15;
    last[1] = label + BLOCK - s - 2;
    uint8_t *end = close_block(block, 3, block + 8 + BLOCK);
    shelf_length = end + 1 - labelled;
    memcpy(shelf, labelled, shelf_length);
    shelf[shelf_length - 1] = 0xFF;
    memcpy(end, image + 1320, image_length - 1320);
    labelled_length = end + image_length - 1320 - labelled;
}

/* The image with every tenth hunk damaged, by turns in its checksum and in its first data block, and cut in its last. */
static uint8_t damaged[ROOM];
static size_t damaged_length, damaged_hunks;

static void make_damaged(void) {
    memcpy(damaged, image, image_length);
    size_t i = 0, last = 0, length;
    for (size_t p = 1320; damaged[p] != 0xFF; p += 8 + length, i++) {
        length = damaged[p + 1] + 256 * damaged[p + 2];
        last = p;
        if (i % 10 != 9)
            continue;
        if (i % 20 == 9)
            damaged[p + 100] ^= 1;
        else {
            damaged[p + 11] = 0;
            close_block(damaged + p, 2, damaged + p + 8 + length);
        }
        damaged_hunks++;
    }
    damaged_length = last + 100;
}

static bool make_inputs(void) {
    for (int i = 0; i < MIB; i++)
        bytes[i] = random_bits();
    for (int i = 0; i < BIN_BYTES; i++)
        bin[i] = random_bits();
    for (int i = 0; i < BIN_BYTES; i += 2) { /* by pages of 4,096 words, bytes and words of 10 bits */
        narrow[i] = i / 8192 % 2 ? random_bits() % 4 : 0;
        narrow[i + 1] = random_bits();
    }
    make_cfg(55);
    Building one = c_build(bin, BIN_BYTES, cfg, cfg_length, NULL, 0, once, ROOM);
    once_length = one.length;
    make_cfg(59);
    make_scripts();
    make_list();
    Building b = c_build(bin, BIN_BYTES, cfg, cfg_length, NULL, 0, image, ROOM);
    image_length = b.length;
    make_packed();
    make_label();
    make_damaged();
    return b.number == 0 && one.number == 0;
}

/* ---- what each side answers: 0 is the proved side, 1 is C ---- */

static uint32_t sum[2];
static Loaded loaded;
static Loading loading;
static Built built;
static Building building;
static uint8_t made[2][ROOM];
static uint16_t ram[2][WORDS], flash[2][FLASH];
static Cartridge cartridge[2], banked[2], accelerated[2];
static uint32_t heard[2][SCRIPT];
static uint8_t assigned[2][SCRIPT];

static void proved_dowcrc(void) { sum[0] = luigi_dowcrc(bytes, MIB); }
static void plain_dowcrc(void) { sum[1] = c_dowcrc(bytes, MIB); }
static void proved_crc324(void) { sum[0] = luigi_crc324(bytes, MIB); }
static void plain_crc324(void) { sum[1] = c_crc324(bytes, MIB); }
static void proved_crc32(void) { sum[0] = luigi_crc32(bytes, MIB); }
static void plain_crc32(void) { sum[1] = c_crc32(bytes, MIB); }
static bool same_sum(void) { return sum[0] == sum[1]; }

static void proved_load(void) { luigi_load(&loaded, image, image_length, ram[0], WORDS, flash[0], 0); }
static void plain_load(void) { loading = c_load(image, image_length, ram[1], WORDS, 0); }
static void proved_load_packed(void) { luigi_load(&loaded, packed, packed_length, ram[0], WORDS, flash[0], 0); }
static void plain_load_packed(void) { loading = c_load(packed, packed_length, ram[1], WORDS, 0); }

static bool same_load(void) {
    const Cartridge *c = &loading.cartridge;
    return loaded.number == 0 && loading.number == 0 && loaded.blocks == loading.blocks && loaded.words == loading.words
        && !memcmp(loaded.compat, loading.compat, 5) && !memcmp(loaded.mapping, c->mapping, sizeof c->mapping)
        && loaded.readable == c->readable && !memcmp(loaded.accelerators, &c->jlp, sizeof c->jlp) && !memcmp(loaded.permissions, c->permissions, sizeof c->permissions) && !memcmp(loaded.flips, c->flips, sizeof c->flips)
        && !memcmp(ram[0], ram[1], sizeof ram[0]);
}

static void proved_build(void) { luigi_build(&built, bin, BIN_BYTES, cfg, cfg_length, cfg, 0, made[0], ROOM); }
static void plain_build(void) { building = c_build(bin, BIN_BYTES, cfg, cfg_length, NULL, 0, made[1], ROOM); }

static void proved_build_narrow(void) { luigi_build(&built, narrow, BIN_BYTES, cfg, cfg_length, cfg, 0, made[0], ROOM); }
static void plain_build_narrow(void) { building = c_build(narrow, BIN_BYTES, cfg, cfg_length, NULL, 0, made[1], ROOM); }

static void proved_build_labelled(void) { luigi_build(&built, bin, BIN_BYTES, cfg, cfg_length, label, label_length, made[0], ROOM); }
static void plain_build_labelled(void) { building = c_build(bin, BIN_BYTES, cfg, cfg_length, label, label_length, made[1], ROOM); }

static bool same_build(void) {
    return built.number == 0 && building.number == 0 && built.length == building.length && built.needed == building.needed
        && !memcmp(made[0], made[1], ROOM);
}

/* The title's own image, from its tables, its words and the paragraphs that its hunks name. */
static bool marks[LUIGI_LOCUTUS_PARAGRAPHS];
static LuigiWrittenImage written;
static Writing writing;

static void make_marks(void) {
    for (size_t p = 32; image[p] != 0xFF; p += 8 + image[p + 1] + 256 * image[p + 2])
        if (image[p] == 2)
            marks[image[p + 9] + 256 * image[p + 10]] = true;
}

static void proved_write_image(void) {
    const Cartridge *c = &cartridge[0];
    luigi_write_image(&written, image + 4, image + 20, c->initial_mapping, c->initial_permissions, c->flips, ram[0], WORDS, (const uint8_t *)marks, made[0], ROOM);
}

static void plain_write_image(void) { writing = c_write_image(image + 4, image + 20, &cartridge[1], ram[1], WORDS, marks, made[1], ROOM); }

static bool same_image(void) {
    return written.number == 0 && writing.number == 0 && written.length == image_length && writing.length == image_length
        && !memcmp(made[0], image, image_length) && !memcmp(made[0], made[1], ROOM);
}

static LuigiFound found;
static Finding finding;

static void proved_find(void) { luigi_find(&found, label, label_length, labelled, labelled_length, 15, 1); }
static void plain_find(void) { finding = c_find(label, label_length, labelled, labelled_length, 15, 1); }
static void proved_find_shelf(void) { luigi_find(&found, label, label_length, shelf, shelf_length, 15, 1); }
static void plain_find_shelf(void) { finding = c_find(label, label_length, shelf, shelf_length, 15, 1); }

static bool same_find(void) {
    return found.number == 0 && finding.number == 0 && found.file == LUIGI_IN_IMAGE && finding.file == LUIGI_IN_IMAGE && found.from == finding.from
        && found.to == finding.to && found.from == 1320 + 8 + label_length + 2 && found.to == 1320 + 8 + BLOCK;
}

static LuigiSalvaged salvaged;
static Salvaging salvaging;

static void proved_salvage(void) { luigi_salvage(&salvaged, damaged, damaged_length, made[0], ROOM); }
static void plain_salvage(void) { salvaging = c_salvage(damaged, damaged_length, made[1], ROOM); }

static bool same_salvage(void) {
    return salvaged.number == 0 && salvaging.number == 0 && salvaged.length == salvaging.length && salvaged.kept == salvaging.kept
        && salvaged.dropped == salvaging.dropped && salvaged.stopped == salvaging.stopped && salvaged.stop == salvaging.stop
        && salvaging.dropped == damaged_hunks && salvaging.stopped && !memcmp(made[0], made[1], ROOM);
}

static size_t places[2][ROOM / 8], drops[2];

static void proved_drops(void) { drops[0] = luigi_drops(damaged, damaged_length, places[0], ROOM / 8); }
static void plain_drops(void) { drops[1] = c_drops(damaged, damaged_length, places[1], ROOM / 8); }
static bool same_drops(void) { return drops[0] == damaged_hunks && drops[1] == damaged_hunks && !memcmp(places[0], places[1], sizeof places[0]); }

/* Headers that ask for a flash of 0 to 15 sectors, by turns. */
static uint8_t headers[16][32];
static size_t asked[2];

static void make_headers(void) {
    for (int i = 0; i < 16; i++) {
        headers[i][6] = 3 | i % 4 << 6;
        headers[i][7] = i / 4;
    }
}

static void proved_flash_words(void) {
    asked[0] = 0;
    for (int i = 0; i < CALLS; i++)
        asked[0] += luigi_flash_words(headers[i % 16], 32);
}

static void plain_flash_words(void) {
    asked[1] = 0;
    for (int i = 0; i < CALLS; i++)
        asked[1] += c_flash_words(headers[i % 16], 32);
}

static bool same_asked(void) { return asked[0] == asked[1] && asked[0] > CALLS; }

static uint8_t bin_back[2][BIN_BYTES], cfg_back[2][CFG_LIMIT];
static LuigiUnbuilt unbuilt;
static Unbuilding unbuilding;

static void proved_unbuild(void) { luigi_unbuild(&unbuilt, once, once_length, bin_back[0], BIN_BYTES, cfg_back[0], CFG_LIMIT); }
static void plain_unbuild(void) { unbuilding = c_unbuild(once, once_length, bin_back[1], BIN_BYTES, cfg_back[1], CFG_LIMIT); }

static bool same_unbuild(void) {
    return unbuilt.number == 0 && unbuilding.number == 0 && unbuilt.bin == BIN_BYTES && unbuilding.bin == BIN_BYTES && unbuilt.cfg == unbuilding.cfg
        && !memcmp(bin_back[0], bin_back[1], BIN_BYTES) && !memcmp(cfg_back[0], cfg_back[1], CFG_LIMIT);
}

/* C's struct of the accelerators is the 20 words. */
static const uint16_t *words_of(const Cartridge *c) { return &c->jlp.field; }
static uint16_t *lent_words_of(Cartridge *c) { return &c->jlp.field; }

static void proved_reads(void) {
    const Cartridge *c = &cartridge[0];
    for (int i = 0; i < TIMES; i++)
        luigi_reads(c->mapping, c->permissions, words_of(c), ram[0], WORDS, read_at, SCRIPT, heard[0], SCRIPT);
}

static void proved_reads_by_value(void) {
    const Cartridge *c = &cartridge[0];
    for (int i = 0; i < TIMES; i++)
        luigi_reads_by_value(c->mapping, c->permissions, c->flips, words_of(c), ram[0], WORDS, read_at, SCRIPT, heard[0], SCRIPT);
}

static void plain_reads(void) {
    for (int i = 0; i < TIMES; i++)
        c_reads(&cartridge[1], ram[1], WORDS, read_at, SCRIPT, heard[1]);
}

/* What is handed over by value stands at multiples of 64 bytes: from elsewhere the copies that gcc makes take four times as long. */
#define HANDED static _Alignas(64)
HANDED Cartridge handed;

static void plain_reads_by_value(void) {
    for (int i = 0; i < TIMES; i++) {
        handed = cartridge[1];
        for (int k = 0; k < SCRIPT; k++)
            heard[1][k] = c_read_by_value(handed, ram[1], WORDS, read_at[k]);
    }
}

static bool same_heard(void) { return !memcmp(heard[0], heard[1], sizeof heard[0]); }

static void proved_writes(void) {
    Cartridge *c = &cartridge[0];
    for (int i = 0; i < TIMES; i++)
        luigi_writes(c->mapping, c->permissions, c->flips, &c->readable, lent_words_of(c), ram[0], WORDS, flash[0], FLASH, write_at, SCRIPT, value, SCRIPT, assigned[0], SCRIPT);
}

static void proved_writes_by_value(void) {
    Cartridge *c = &cartridge[0];
    for (int i = 0; i < TIMES; i++) {
        Active a;
        luigi_writes_by_value(&a, c->mapping, c->permissions, c->flips, words_of(c), ram[0], WORDS, flash[0], FLASH, write_at, SCRIPT, value, SCRIPT);
        memcpy(c->mapping, a.mapping, sizeof a.mapping);
        memcpy(c->permissions, a.permissions, sizeof a.permissions);
        c->readable = a.readable;
        memcpy(&c->jlp, a.accelerators, sizeof c->jlp);
    }
}

static void plain_writes(void) {
    for (int i = 0; i < TIMES; i++)
        c_writes(&cartridge[1], ram[1], WORDS, flash[1], FLASH, write_at, value, SCRIPT, assigned[1]);
}

static void plain_writes_by_value(void) {
    for (int i = 0; i < TIMES; i++) {
        handed = cartridge[1];
        for (int k = 0; k < SCRIPT; k++)
            handed = c_write_by_value(handed, ram[1], WORDS, flash[1], FLASH, write_at[k], value[k]).cartridge;
        cartridge[1] = handed;
    }
}

static bool same_numbers(void) { return !memcmp(assigned[0], assigned[1], sizeof assigned[0]); }

static bool same_worlds(void) {
    return !memcmp(&cartridge[0], &cartridge[1], sizeof cartridge[0]) && !memcmp(ram[0], ram[1], sizeof ram[0]);
}

static bool same_writes(void) { return same_worlds() && same_numbers(); }

/* The same accesses, a call each. */
static void proved_single_reads(void) {
    const Cartridge *c = &cartridge[0];
    for (int i = 0; i < TIMES; i++)
        for (int k = 0; k < SCRIPT; k++)
            heard[0][k] = luigi_read(c->mapping, c->permissions, words_of(c), ram[0], WORDS, read_at[k]);
}

static void plain_single_reads(void) {
    for (int i = 0; i < TIMES; i++)
        for (int k = 0; k < SCRIPT; k++)
            heard[1][k] = c_read(&cartridge[1], ram[1], WORDS, read_at[k]);
}

static void proved_single_writes(void) {
    Cartridge *c = &cartridge[0];
    for (int i = 0; i < TIMES; i++)
        for (int k = 0; k < SCRIPT; k++)
            assigned[0][k] = luigi_write(c->mapping, c->permissions, c->flips, &c->readable, lent_words_of(c), ram[0], WORDS, flash[0], FLASH, write_at[k], value[k]);
}

static void plain_single_writes(void) {
    for (int i = 0; i < TIMES; i++)
        for (int k = 0; k < SCRIPT; k++)
            assigned[1][k] = c_write(&cartridge[1], ram[1], WORDS, flash[1], FLASH, write_at[k], value[k]);
}

static void proved_resets(void) {
    Cartridge *c = &cartridge[0];
    for (int i = 0; i < RESETS; i++)
        luigi_reset(c->initial_mapping, c->initial_permissions, c->mapping, c->permissions, &c->readable, lent_words_of(c));
}

static void plain_resets(void) {
    for (int i = 0; i < RESETS; i++)
        c_reset(&cartridge[1]);
}

static void proved_switches(void) {
    Cartridge *c = &banked[0];
    for (int i = 0; i < TIMES; i++)
        luigi_writes(c->mapping, c->permissions, c->flips, &c->readable, lent_words_of(c), ram[0], WORDS, flash[0], FLASH, switch_at, SCRIPT, switch_value, SCRIPT, assigned[0], SCRIPT);
}

static void plain_switches(void) {
    for (int i = 0; i < TIMES; i++)
        c_writes(&banked[1], ram[1], WORDS, flash[1], FLASH, switch_at, switch_value, SCRIPT, assigned[1]);
}

static bool same_after(const Cartridge *c) {
    return !memcmp(&c[0], &c[1], sizeof *c) && !memcmp(ram[0], ram[1], sizeof ram[0]) && !memcmp(assigned[0], assigned[1], sizeof assigned[0]);
}

static bool same_banked(void) { return same_after(banked); }
static bool same_accelerated(void) { return same_after(accelerated); }

static void proved_jlp_reads(void) {
    const Cartridge *c = &accelerated[0];
    for (int i = 0; i < TIMES; i++)
        luigi_reads(c->mapping, c->permissions, words_of(c), ram[0], WORDS, jlp_at, SCRIPT, heard[0], SCRIPT);
}

static void plain_jlp_reads(void) {
    for (int i = 0; i < TIMES; i++)
        c_reads(&accelerated[1], ram[1], WORDS, jlp_at, SCRIPT, heard[1]);
}

static void proved_jlp(const uint16_t *at, const uint16_t *v, int times) {
    Cartridge *c = &accelerated[0];
    for (int i = 0; i < times; i++)
        luigi_writes(c->mapping, c->permissions, c->flips, &c->readable, lent_words_of(c), ram[0], WORDS, flash[0], FLASH, at, SCRIPT, v, SCRIPT, assigned[0], SCRIPT);
}

static void plain_jlp(const uint16_t *at, const uint16_t *v, int times) {
    for (int i = 0; i < times; i++)
        c_writes(&accelerated[1], ram[1], WORDS, flash[1], FLASH, at, v, SCRIPT, assigned[1]);
}

static void proved_jlp_writes(void) { proved_jlp(jlp_at, value, TIMES); }
static void plain_jlp_writes(void) { plain_jlp(jlp_at, value, TIMES); }
static void proved_multiplies(void) { proved_jlp(operand_at, value, TIMES); }
static void plain_multiplies(void) { plain_jlp(operand_at, value, TIMES); }
static void proved_saves(void) { proved_jlp(flash_at, flash_value, SAVES); }
static void plain_saves(void) { plain_jlp(flash_at, flash_value, SAVES); }
static bool same_saves(void) { return same_accelerated() && !memcmp(flash[0], flash[1], sizeof flash[0]); }

/* The list is run on copies of the cartridge, and of the same RAM: the state is C's struct, field by field. */
static uint32_t words_read[2][LINES];
_Static_assert(sizeof(LuigiState) == sizeof(Cartridge), "one layout");
HANDED LuigiState given;
static LuigiRan proved_ran;
HANDED Cartridge run_on;
static Ran plain_ran;

static void proved_run(void) { luigi_run(&proved_ran, list, list_length, LINES, given, ram[0], WORDS, flash[0], FLASH, words_read[0], LINES); }
static void plain_run(void) {
    memcpy(&run_on, &given, sizeof run_on);
    plain_ran = c_run(list, list_length, LINES, &run_on, ram[1], WORDS, flash[1], FLASH, words_read[1], LINES);
}

static bool same_run(void) {
    return proved_ran.number == 0 && plain_ran.number == 0 && proved_ran.lines == LINES && plain_ran.lines == LINES && proved_ran.length == plain_ran.length
        && !memcmp(&proved_ran.state, &run_on, sizeof run_on) && !memcmp(words_read[0], words_read[1], sizeof words_read[0]) && !memcmp(ram[0], ram[1], sizeof ram[0]);
}

/* One call each with the cartridge by value, on both sides. */
HANDED LuigiState by_value;
HANDED LuigiWrittenState left;
HANDED Written plain_left;

static void proved_read_calls(void) {
    for (int i = 0; i < CALLS; i++)
        heard[0][i % SCRIPT] = luigi_read_by_value(by_value, ram[0], WORDS, read_at[i % SCRIPT]);
}

static void plain_read_calls(void) {
    for (int i = 0; i < CALLS; i++)
        heard[1][i % SCRIPT] = c_read_by_value(run_on, ram[1], WORDS, read_at[i % SCRIPT]);
}

static void proved_write_calls(void) {
    for (int i = 0; i < CALLS; i++) {
        luigi_write_by_value(&left, by_value, ram[0], WORDS, flash[0], FLASH, write_at[i % SCRIPT], value[i % SCRIPT]);
        by_value = left.state;
        assigned[0][i % SCRIPT] = left.assigned;
    }
}

static void plain_write_calls(void) {
    for (int i = 0; i < CALLS; i++) {
        plain_left = c_write_by_value(run_on, ram[1], WORDS, flash[1], FLASH, write_at[i % SCRIPT], value[i % SCRIPT]);
        run_on = plain_left.cartridge;
        assigned[1][i % SCRIPT] = plain_left.assigned;
    }
}

static void proved_reset_calls(void) {
    for (int i = 0; i < CALLS; i++) {
        luigi_reset_by_value(&left.state, by_value);
        by_value = left.state;
    }
}

static void plain_reset_calls(void) {
    for (int i = 0; i < CALLS; i++) {
        plain_left.cartridge = c_reset_by_value(run_on);
        run_on = plain_left.cartridge;
    }
}

static bool same_by_value(void) { return !memcmp(&by_value, &run_on, sizeof run_on) && !memcmp(ram[0], ram[1], sizeof ram[0]) && same_numbers(); }

/* ---- measuring ---- */

typedef struct {
    const char *name;
    int runs;
    void (*proved)(void), (*plain)(void);
    bool (*same)(void);
    double per; /* accesses in a run, where a rate is of interest */
} Row;

static const Row rows[] = {
    {"DOWCRC over 1 MiB", 25, proved_dowcrc, plain_dowcrc, same_sum, 0},
    {"CRC32/4 over 1 MiB", 25, proved_crc324, plain_crc324, same_sum, 0},
    {"CRC32 over 1 MiB", 25, proved_crc32, plain_crc32, same_sum, 0},
    {"loading 600 KB in 8-bit and 10-bit data blocks", 25, proved_load_packed, plain_load_packed, same_load, 0},
    {"loading 600 KB in 16-bit data blocks", 25, proved_load, plain_load, same_load, 0},
    {"building from a BIN of 512 KB, 16-bit data blocks", 25, proved_build, plain_build, same_build, 0},
    {"building from a BIN of 512 KB, 8-bit and 10-bit data blocks", 25, proved_build_narrow, plain_build_narrow, same_build, 0},
    {"building from a BIN of 512 KB with a label of 64 KB", 25, proved_build_labelled, plain_build_labelled, same_build, 0},
    {"writing an image of 600 KB from tables and RAM", 25, proved_write_image, plain_write_image, same_image, 0},
    {"looking up a text: a label of 64 KB, an image of 650 KB that repeats it", 25, proved_find, plain_find, same_find, 0},
    {"looking up a text: a label of 64 KB, an image of 67 KB without hunks", 25, proved_find_shelf, plain_find_shelf, same_find, 0},
    {"salvaging 600 KB, every tenth hunk damaged", 25, proved_salvage, plain_salvage, same_salvage, 0},
    {"the places of what a salvage of these 600 KB leaves out", 25, proved_drops, plain_drops, same_drops, 0},
    {"back to a BIN of 512 KB and a CFG", 25, proved_unbuild, plain_unbuild, same_unbuild, 0},
    {"10 million bus reads", 9, proved_reads, plain_reads, same_heard, 1e7},
    {"10 million bus writes, every 16th a flip", 9, proved_writes, plain_writes, same_writes, 1e7},
    {"10 million writes with switches, every 16th a bankswitch", 9, proved_switches, plain_switches, same_banked, 1e7},
    {"10 million bus reads, a call each", 9, proved_single_reads, plain_single_reads, same_heard, 1e7},
    {"10 million bus writes, a call each", 9, proved_single_writes, plain_single_writes, same_writes, 1e7},
    {"a million resets", 9, proved_resets, plain_resets, same_worlds, 1e6},
    {"10 million reads of JLP RAM", 9, proved_jlp_reads, plain_jlp_reads, same_heard, 1e7},
    {"10 million writes to JLP RAM", 9, proved_jlp_writes, plain_jlp_writes, same_accelerated, 1e7},
    {"10 million multiplies by JLP", 9, proved_multiplies, plain_multiplies, same_accelerated, 1e7},
    {"a million writes to the flash's registers, every third a command", 9, proved_saves, plain_saves, same_saves, 1e6},
    {"a list of a million lines, read and run", 9, proved_run, plain_run, same_run, 1e6},
    {"a million questions how much flash an image asks for", 9, proved_flash_words, plain_flash_words, same_asked, 1e6},
    {"10 million bus reads, the cartridge by value", 3, proved_reads_by_value, plain_reads_by_value, same_heard, 1e7},
    {"10 million bus writes, the cartridge by value", 3, proved_writes_by_value, plain_writes_by_value, same_worlds, 1e7},
    {"a million bus reads, the cartridge by value, a call each", 3, proved_read_calls, plain_read_calls, same_heard, 1e6},
    {"a million bus writes, the cartridge by value, a call each", 3, proved_write_calls, plain_write_calls, same_by_value, 1e6},
    {"a million resets, the cartridge by value", 3, proved_reset_calls, plain_reset_calls, same_by_value, 1e6},
};

/* Processor time, so that what else the machine does counts little. */
static double now(void) {
    struct timespec t;
    clock_gettime(CLOCK_PROCESS_CPUTIME_ID, &t);
    return t.tv_sec * 1e3 + t.tv_nsec / 1e6;
}

static double timed(void (*f)(void), double best) {
    double from = now();
    f();
    double took = now() - from;
    return took < best ? took : best;
}

static bool measure(const Row *r) {
    double proved = 1e9, plain = 1e9;
    for (int i = 0; i < r->runs; i++) {
        proved = timed(r->proved, proved);
        plain = timed(r->plain, plain);
    }
    printf("| %s | %.2f | %.2f ms |", r->name, proved / plain, plain);
    if (r->per)
        printf(" %.1f million a second |\n", r->per / proved / 1e3);
    else
        printf(" |\n");
    if (r->same())
        return true;
    printf("the two sides differ: %s\n", r->name);
    return false;
}

int main(int count, char **words) {
    if (!make_inputs()) {
        printf("the title does not build\n");
        return 1;
    }
    Loading l = c_load(image, image_length, ram[1], WORDS, 0);
    memcpy(ram[0], ram[1], sizeof ram[0]);
    cartridge[0] = cartridge[1] = l.cartridge;
    memcpy(&given, &l.cartridge, sizeof given);
    accelerated[0] = accelerated[1] = l.cartridge;
    accelerated[0].jlp = accelerated[1].jlp = (Jlp){.field = 3, .on = 1, .sectors = SECTORS};
    memset(flash, 0xFF, sizeof flash);
    for (int p = 16 * 8; p < 16 * 11; p += 8)
        l.cartridge.permissions[p] |= 8; /* BANKSW */
    banked[0] = banked[1] = l.cartridge;
    make_marks();
    make_headers();
    printf("| what | Rattle / C | C | Rattle's rate |\n|---|---|---|---|\n");
    bool fine = true;
    for (size_t i = 0; i < sizeof rows / sizeof rows[0]; i++) {
        if (count > 1 && !strstr(rows[i].name, words[1]))
            continue;
        memcpy(&by_value, &given, sizeof given);
        memcpy(&run_on, &given, sizeof given);
        fine = measure(&rows[i]) && fine;
    }
    return fine ? 0 : 1;
}
