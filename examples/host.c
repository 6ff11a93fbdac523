/* A host of the proved cartridge: loads an image, runs a list of bus accesses on it and prints the words read, as `luigi bus` does.
   The list is run twice, at once by luigi_run and line by line by luigi_cartridge_read, _write and _reset; both must hear and leave the same.
   host IMAGE LIST: status 0 where it ran, 1 where it was refused, 2 where it could not run. */
#include "../include/luigi.h"
#include <stdbool.h>
#include <stdio.h>
#include <stdlib.h>
#include <string.h>

/* The most bytes of an image, bytes of a list, words of flash (682 sectors of 768) and answers: a read has 15 bytes with the end of its line. */
enum { IMAGE_ROOM = 2097152, LIST_ROOM = 4194304, FLASH_ROOM = 682 * 768, ANSWERS = LIST_ROOM / 15 + 1 };

/* A cartridge, and the memory that it is lent. */
typedef struct {
    LuigiCartridge cartridge;
    uint16_t ram[LUIGI_RAM_WORDS], flash[FLASH_ROOM];
} Host;

static uint8_t image[IMAGE_ROOM], list[LIST_ROOM + 1];
static Host at_once, by_line;
static uint32_t heard[ANSWERS], heard_by_line[ANSWERS];

static void stop(const char *what, const char *why) {
    fprintf(stderr, "host: %s %s\n", what, why);
    exit(2);
}

static size_t read_file(const char *name, uint8_t *bytes, size_t room) {
    FILE *f = fopen(name, "rb");
    if (!f)
        stop(name, "cannot be opened");
    size_t n = fread(bytes, 1, room, f);
    if (ferror(f) || fgetc(f) != EOF)
        stop(name, "cannot be read, or is too long");
    fclose(f);
    return n;
}

static void refuse(uint32_t number, size_t place) {
    printf("result=refused\ncode=%u\nat=%zu\n", (unsigned)number, place);
    exit(1);
}

/* A RAM of zeros and an erased flash, and the image loaded into them. */
static void load(Host *h, size_t n) {
    memset(h->flash, 0xFF, sizeof h->flash);
    h->cartridge.ram = h->ram;
    h->cartridge.words = LUIGI_RAM_WORDS;
    h->cartridge.flash = h->flash;
    h->cartridge.flash_room = FLASH_ROOM;
    LuigiRefusal r = luigi_cartridge_load(&h->cartridge, image, n);
    if (r.number)
        refuse(r.number, r.place);
}

static uint16_t hex(const char *digits) {
    char four[5] = {digits[0], digits[1], digits[2], digits[3], 0};
    return strtoul(four, NULL, 16);
}

/* One line of a list that luigi_run has taken: op=x, op=r addr=HHHH or op=w addr=HHHH value=HHHH. */
static uint32_t *access_line(LuigiCartridge *c, const char *line, uint32_t *out) {
    if (line[3] == 'x')
        luigi_cartridge_reset(c);
    else if (line[3] == 'r')
        *out++ = luigi_cartridge_read(c, hex(line + 10));
    else
        luigi_cartridge_write(c, hex(line + 10), hex(line + 21));
    return out;
}

static size_t access_all(LuigiCartridge *c, size_t lines) {
    const char *line = (const char *)list;
    uint32_t *out = heard_by_line;
    for (size_t i = 0; i < lines; i++) {
        out = access_line(c, line, out);
        const char *end = strchr(line, '\n');
        line = end ? end + 1 : line;
    }
    return out - heard_by_line;
}

static bool same(const LuigiRan *ran, size_t answers) {
    return ran->length == answers && !memcmp(heard, heard_by_line, answers * sizeof *heard) &&
           !memcmp(&ran->state, &by_line.cartridge.state, sizeof ran->state) &&
           !memcmp(at_once.ram, by_line.ram, sizeof by_line.ram) && !memcmp(at_once.flash, by_line.flash, sizeof by_line.flash);
}

static void show(const LuigiRan *ran) {
    for (size_t i = 0; i < ran->length; i++)
        if (heard[i] == LUIGI_SILENCE)
            puts("word=silence");
        else
            printf("word=%04X\n", (unsigned)heard[i]);
    printf("lines=%zu\n", ran->lines);
}

int main(int count, char **names) {
    if (count != 3)
        stop("name", "an image and a list: host IMAGE LIST");
    size_t image_length = read_file(names[1], image, IMAGE_ROOM);
    size_t list_length = read_file(names[2], list, LIST_ROOM);
    load(&at_once, image_length);
    load(&by_line, image_length);
    static LuigiRan ran;
    LuigiCartridge *c = &at_once.cartridge;
    luigi_run(&ran, list, list_length, LIST_ROOM, c->state, c->ram, c->words, c->flash, c->flash_words, heard, ANSWERS);
    if (ran.number)
        refuse(ran.number, ran.place);
    if (!same(&ran, access_all(&by_line.cartridge, ran.lines)))
        stop(names[2], "answers otherwise line by line");
    show(&ran);
}
