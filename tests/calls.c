/* Calls every function of include/luigi.h once or more and holds what it answers against another of them, or against a known answer.
   calls BIN CFG LABEL: status 0 where all is as it should be, 1 where something is not, 2 where it could not run. */
#include "../include/luigi.h"
#include <stdbool.h>
#include <stdio.h>
#include <stdlib.h>
#include <string.h>

enum { ROOM = 2097152, ACCESSES = 50000, SHORT = 200 };

static uint8_t bin[524288], cfg[16384], label[65535], image[ROOM], plain[ROOM], again[ROOM], back_bin[524288], back_cfg[16384];
static size_t bin_length, cfg_length, label_length, image_length, plain_length;
static uint16_t ram[LUIGI_RAM_WORDS], other[LUIGI_RAM_WORDS], no_flash[1];
static LuigiLoaded loaded;
static int failed;

static void check(bool good, const char *what) {
    if (!good) {
        printf("calls: %s\n", what);
        failed++;
    }
}

static size_t read_file(const char *name, uint8_t *bytes, size_t room) {
    FILE *f = fopen(name, "rb");
    if (!f) {
        fprintf(stderr, "calls: %s cannot be opened\n", name);
        exit(2);
    }
    size_t n = fread(bytes, 1, room, f);
    fclose(f);
    return n;
}

static uint32_t number_at(const uint8_t *s) { return s[0] | s[1] << 8 | s[2] << 16 | (uint32_t)s[3] << 24; }

/* 01's bench cases, and the checksum that stands in the first block. */
static void sums(void) {
    static const uint8_t four[4] = {0x4A, 0x5A, 0x6A, 0x7A};
    check(luigi_dowcrc(four, 4) == 0xB8, "luigi_dowcrc");
    check(luigi_crc32(four, 4) == 0x9B04D72C, "luigi_crc32");
    check(luigi_crc324(image + 40, 1280) == number_at(image + 36), "luigi_crc324");
}

static void build(void) {
    LuigiBuilt b;
    check(luigi_build(&b, bin, bin_length, cfg, cfg_length, label, label_length, image, ROOM) == &b, "luigi_build answers its pointer");
    check(b.number == 0 && b.needed == 16384, "luigi_build");
    image_length = b.length;
    luigi_build(&b, bin, bin_length, cfg, cfg_length, label, 0, plain, ROOM);
    plain_length = b.length;
    luigi_build(&b, bin, bin_length, cfg, cfg_length, label, label_length, again, image_length - 1);
    check(b.number == 29 && b.length == image_length && again[0] == 0, "luigi_build, where the buffer is short");
}

static void load(void) {
    check(luigi_flash_words(image, image_length) == 0 && luigi_flash_words(image, 0) == 0, "luigi_flash_words");
    luigi_load(&loaded, image, image_length, ram, LUIGI_RAM_WORDS, no_flash, 0);
    check(loaded.number == 0 && loaded.words == 8704, "luigi_load");
}

/* Flag bytes with JLP flash of 16 sectors, by fields 3 and 1: only the first has a flash. */
static void flash(void) {
    memcpy(again, image, 32);
    again[6] = 3;
    again[7] = 4;
    check(luigi_flash_words(again, 32) == 16 * 768, "luigi_flash_words, of an image with a flash");
    again[6] = 1;
    check(luigi_flash_words(again, 32) == 0, "luigi_flash_words, of accelerators without one");
}

static bool same_as_loaded(const uint8_t *s, size_t n) {
    static LuigiLoaded l;
    memset(other, 0, sizeof other);
    luigi_load(&l, s, n, other, LUIGI_RAM_WORDS, no_flash, 0);
    return l.number == 0 && !memcmp(l.mapping, loaded.mapping, sizeof l.mapping) && !memcmp(l.permissions, loaded.permissions, sizeof l.permissions) &&
           !memcmp(l.flips, loaded.flips, sizeof l.flips) && !memcmp(ram, other, sizeof ram);
}

/* Marks of any number but 0; a title of 16,384 words has 64 paragraphs. */
static void write_image(void) {
    uint8_t marks[LUIGI_LOCUTUS_PARAGRAPHS] = {0};
    for (int p = 0; p < 64; p++)
        marks[p] = 1 + 3 * p;
    LuigiWrittenImage w;
    luigi_write_image(&w, image + 4, image + 20, loaded.mapping, loaded.permissions, loaded.flips, ram, LUIGI_RAM_WORDS, marks, again, ROOM);
    check(w.number == 0 && same_as_loaded(again, w.length), "luigi_write_image");
    marks[2047] = 255;
    luigi_write_image(&w, image + 4, image + 20, loaded.mapping, loaded.permissions, loaded.flips, ram, 16384, marks, again, ROOM);
    check(w.number == 9 && w.place == 2047 && w.length == 0, "luigi_write_image, of a paragraph past the RAM");
}

static bool is_text(const uint8_t *file, LuigiFound f, const char *text) {
    return f.to - f.from == strlen(text) && !memcmp(file + f.from, text, strlen(text));
}

static void find(void) {
    LuigiFound f;
    luigi_find(&f, label, label_length, image, image_length, 0, 1);
    check(f.number == 0 && f.file == LUIGI_IN_LABEL && is_text(label, f, "Four in One"), "luigi_find, in the label");
    luigi_find(&f, label, 0, image, image_length, 0, 1);
    check(f.number == 0 && f.file == LUIGI_IN_IMAGE && is_text(image, f, "Four in One"), "luigi_find, in the image");
    luigi_find(&f, label, 0, image, image_length, 0, 2);
    check(f.number == 0 && f.file == LUIGI_NOWHERE, "luigi_find, nowhere");
    luigi_find(&f, label, 0, image, 31, 0, 1);
    check(f.number == 1 && f.file == LUIGI_NOWHERE, "luigi_find, refused");
}

/* The last byte of the last hunk is changed: behind it stands 0xFF alone. Then the image is cut in that hunk. */
static void salvage(void) {
    static uint8_t damaged[ROOM];
    LuigiSalvaged s;
    size_t places[2] = {0, 7};
    memcpy(damaged, plain, plain_length);
    damaged[plain_length - 2] ^= 1;
    luigi_salvage(&s, damaged, plain_length, again, ROOM);
    check(s.number == 0 && s.dropped == 1 && s.kept == 34 && !s.stopped, "luigi_salvage");
    check(luigi_drops(damaged, plain_length, places, 1) == 1 && places[0] + 8 < plain_length && damaged[places[0]] == 2 && places[1] == 7, "luigi_drops");
    luigi_salvage(&s, damaged, plain_length - SHORT, again, ROOM);
    check(s.number == 0 && s.stopped == 1 && s.stop == places[0], "luigi_salvage, of an image that is cut");
}

static void unbuild(void) {
    LuigiUnbuilt u;
    LuigiBuilt b;
    luigi_unbuild(&u, plain, plain_length, back_bin, sizeof back_bin, back_cfg, sizeof back_cfg);
    check(u.number == 0 && u.bin != 0, "luigi_unbuild");
    luigi_build(&b, back_bin, u.bin, back_cfg, u.cfg, label, 0, again, ROOM);
    check(b.number == 0 && same_as_loaded(again, b.length), "luigi_unbuild, built again");
    luigi_unbuild(&u, plain, plain_length, back_bin, 1, back_cfg, sizeof back_cfg);
    check(u.number == 29 && u.bin != 0 && u.cfg != 0, "luigi_unbuild, where a buffer is short");
}

static uint32_t random_bits(void) {
    static uint32_t x = 12345;
    x ^= x << 13;
    x ^= x >> 17;
    return x ^= x << 5;
}

/* Reads, writes, page requests and resets by lent tables and by value, side by side: both hear and leave the same. */
static void accesses(void) {
    static LuigiState lent, value, next;
    static LuigiWrittenState written;
    luigi_state(&lent, loaded.mapping, loaded.permissions, loaded.flips, loaded.accelerators);
    check(lent.readable == loaded.readable && !memcmp(lent.initial_mapping, loaded.mapping, sizeof loaded.mapping), "luigi_state");
    value = lent;
    memcpy(other, ram, sizeof ram);
    for (int i = 0; i < ACCESSES && !failed; i++) {
        uint16_t at = random_bits(), v = random_bits();
        if (i % 4 == 0)
            at |= 0xFFF, v = (at & 0xF000) | 0xA50 | (v & 15);
        check(luigi_read(lent.mapping, lent.permissions, lent.accelerators, ram, LUIGI_RAM_WORDS, at) == luigi_read_by_value(value, other, LUIGI_RAM_WORDS, at),
              "luigi_read and luigi_read_by_value");
        uint8_t assigned = luigi_write(lent.mapping, lent.permissions, lent.flips, &lent.readable, lent.accelerators, ram, LUIGI_RAM_WORDS, no_flash, 0, at, v);
        luigi_write_by_value(&written, value, other, LUIGI_RAM_WORDS, no_flash, 0, at, v);
        value = written.state;
        check(assigned == written.assigned && !memcmp(&lent, &value, sizeof lent), "luigi_write and luigi_write_by_value");
        if (i % 1000)
            continue;
        luigi_reset(lent.initial_mapping, lent.initial_permissions, lent.mapping, lent.permissions, &lent.readable, lent.accelerators);
        luigi_reset_by_value(&next, value);
        value = next;
        check(!memcmp(&lent, &value, sizeof lent) && lent.readable == loaded.readable, "luigi_reset and luigi_reset_by_value");
    }
    check(!memcmp(ram, other, sizeof ram), "the RAM after the accesses");
}

/* The four runs, of two writes and two reads, beside single accesses, from the load on. */
static void runs(void) {
    static const uint16_t at[2] = {0x4FFF, 0x5800}, value[2] = {0x4A51, 0x1234}, from[2] = {0x4800, 0x5800};
    uint8_t assigned[2] = {0, 0};
    uint32_t heard[2], heard_by_value[2];
    LuigiActive a;
    static LuigiState s;
    luigi_state(&s, loaded.mapping, loaded.permissions, loaded.flips, loaded.accelerators);
    luigi_writes_by_value(&a, s.mapping, s.permissions, s.flips, s.accelerators, ram, LUIGI_RAM_WORDS, no_flash, 0, at, 2, value, 2);
    luigi_writes(s.mapping, s.permissions, s.flips, &s.readable, s.accelerators, ram, LUIGI_RAM_WORDS, no_flash, 0, at, 2, value, 2, assigned, 2);
    check(assigned[0] == 8 && assigned[1] == 0 && !memcmp(a.mapping, s.mapping, sizeof a.mapping), "luigi_writes and luigi_writes_by_value");
    luigi_reads(s.mapping, s.permissions, s.accelerators, ram, LUIGI_RAM_WORDS, from, 2, heard, 2);
    luigi_reads_by_value(s.mapping, s.permissions, s.flips, s.accelerators, ram, LUIGI_RAM_WORDS, from, 2, heard_by_value, 2);
    check(heard[0] == 0x2000 && heard[1] == 0x1234 && !memcmp(heard, heard_by_value, sizeof heard), "luigi_reads and luigi_reads_by_value");
}

/* A list, its limit, and its two refusals. */
static void list(void) {
    static const char text[] = "op=w addr=5800 value=1234\nop=r addr=5800\nop=x\nop=r addr=0000\n";
    static LuigiState s;
    static LuigiRan r;
    uint32_t heard[3] = {1, 2, 3};
    luigi_state(&s, loaded.mapping, loaded.permissions, loaded.flips, loaded.accelerators);
    luigi_run(&r, (const uint8_t *)text, sizeof text - 1, 100, s, ram, LUIGI_RAM_WORDS, no_flash, 0, heard, 3);
    check(r.number == 0 && r.lines == 4 && r.length == 2 && heard[0] == 0x1234 && heard[1] == LUIGI_SILENCE && heard[2] == 3, "luigi_run");
    luigi_run(&r, (const uint8_t *)text, sizeof text - 1, 1, s, ram, LUIGI_RAM_WORDS, no_flash, 0, heard, 1);
    check(r.number == 29 && r.length == 2 && r.lines == 0 && !memcmp(&r.state, &s, sizeof s), "luigi_run, where the buffer is short");
    luigi_run(&r, (const uint8_t *)text, 3, 1, s, ram, LUIGI_RAM_WORDS, no_flash, 0, heard, 3);
    check(r.number == 33 && r.place == 1, "luigi_run, of a malformed line");
}

int main(int count, char **names) {
    if (count != 4) {
        fprintf(stderr, "calls: name a BIN, a CFG and a label\n");
        return 2;
    }
    bin_length = read_file(names[1], bin, sizeof bin);
    cfg_length = read_file(names[2], cfg, sizeof cfg);
    label_length = read_file(names[3], label, sizeof label);
    build();
    sums();
    load();
    flash();
    write_image();
    find();
    salvage();
    unbuild();
    runs();
    list();
    accesses();
    printf("calls: %d failed\n", failed);
    return failed != 0;
}
