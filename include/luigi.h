/* The proved functions of crates/exports, as a C program calls them. README.md names the commands that make the library.

   Buffers. The caller owns every buffer. A function reads and writes what it is lent while it runs: it keeps no pointer, holds nothing from call to
   call, and of the C library uses memcpy, memmove and memset alone. What is lent as const is left as found. A length counts elements. A pointer is
   aligned for its type and is not NULL, where its length is 0 too. What a function writes, its answer among it, overlaps nothing else that it is lent.

   Answers. A struct is answered through the pointer that goes first, and the pointer comes back. That is how C on x86-64 returns one of more than 16
   bytes, unseen; written out it is the same on every machine. A struct that a function takes is passed by value, as C passes it.

   Refusals. `number` is 0 where nothing is refused. Any other is a refusal, by the numbers and with the place of the table in README.md. It answers
   zero in all else but what stands beside the function, and leaves every lent buffer as it was, word for word.

   Stack. luigi_unbuild takes some 2.2 MiB, luigi_build some 1.1 MiB, luigi_salvage some 0.3 MiB, every other less than 64 KiB. */
#ifndef LUIGI_H
#define LUIGI_H
#include <stddef.h>
#include <stdint.h>
#ifdef __cplusplus
extern "C" {
#endif

enum {
    LUIGI_PARAGRAPHS = 256,         /* entries of the mapping, of the permissions and of the page flips */
    LUIGI_LOCUTUS_PARAGRAPHS = 2048,
    LUIGI_RAM_WORDS = 524288,       /* of a lent RAM so many words count, and later ones are never touched */
    LUIGI_FLAGS = 16,
    LUIGI_UID = 8,
    LUIGI_ACCELERATORS = 20,        /* the JLP field, 1 for on, twelve operands, the two results, the CRC; the flash's sectors, address and row */
    LUIGI_SILENCE = 0x10000         /* what a read that nobody answers hears; every other answer is a word */
};

/* ---- checksums of n bytes ---- */

/* DOWCRC (0x98, start 0), which the header carries, and a block of its first three bytes. */
uint8_t luigi_dowcrc(const uint8_t *s, size_t n);

/* CRC32/4 (0x82F63B78, start 0, not inverted), which a block carries of its payload. */
uint32_t luigi_crc324(const uint8_t *s, size_t n);

/* IEEE CRC32 (0xEDB88320, start and final inversion), of which the UID of a built image is made: of the BIN, then of the CFG. */
uint32_t luigi_crc32(const uint8_t *s, size_t n);

/* ---- images ---- */

/* What a load answers: the blocks before the end, the words stored, the compatibility fields (0 to 3; the last, TutorVision, is 4 where nothing is
   stated: version 0, or a refusal), and the cartridge as loaded. */
typedef struct {
    uint32_t number;
    size_t place, blocks, words;
    uint8_t compat[5];
    uint16_t mapping[LUIGI_PARAGRAPHS];
    uint8_t permissions[LUIGI_PARAGRAPHS];
    uint16_t flips[LUIGI_PARAGRAPHS];
    uint16_t readable; /* how many of the permissions have READ */
    uint16_t accelerators[LUIGI_ACCELERATORS];
} LuigiLoaded;

/* The words of flash that an image asks for, 0 where it has none: a load wants a flash of just that size, and refuses any other with 13. An erased
   flash is 0xFFFF throughout. */
size_t luigi_flash_words(const uint8_t *image, size_t n);

/* Loads an image into a lent RAM. The flash is lent, measured and left as found. */
LuigiLoaded *luigi_load(LuigiLoaded *answer, const uint8_t *image, size_t n, uint16_t *ram, size_t words, const uint16_t *flash, size_t flash_words);

typedef struct {
    uint32_t number, needed; /* the words that the title takes */
    size_t place, length;    /* of the image; at 29 the length that is needed */
} LuigiBuilt;

/* Builds an image from a BIN, a CFG and a label, which may be empty, into the front of `out`; bytes past the image are kept. */
LuigiBuilt *luigi_build(LuigiBuilt *answer, const uint8_t *bin, size_t nbin, const uint8_t *cfg, size_t ncfg, const uint8_t *label, size_t nlabel,
                        uint8_t *out, size_t room);

typedef struct {
    uint32_t number;
    size_t place, length; /* of the image; at 29 the length that is needed */
} LuigiWrittenImage;

/* Writes the image of flag bytes, UID, three tables and the marked Locutus paragraphs of a RAM into the front of `out`; bytes past the image are kept.
   marks has a byte for each of 2,048 paragraphs: every byte but 0 marks. */
LuigiWrittenImage *luigi_write_image(LuigiWrittenImage *answer, const uint8_t *flags, const uint8_t *uid, const uint16_t *mapping, const uint8_t *permissions,
                                     const uint16_t *flips, const uint16_t *ram, size_t words, const uint8_t *marks, uint8_t *out, size_t room);

/* ---- one access at a time, by lent tables ---- */

/* The caller owns tables, accelerators, RAM and flash, and they stay as an access leaves them: a cartridge is the tables, the number and the
   accelerators that a load answered, with a copy of the first two tables kept for resets. */

/* The word at a console address, or LUIGI_SILENCE. */
uint32_t luigi_read(const uint16_t *mapping, const uint8_t *permissions, const uint16_t *accelerators, const uint16_t *ram, size_t words, uint16_t at);

/* A write. It answers how many mapping entries it assigned: 16, 8 or 0. */
uint8_t luigi_write(uint16_t *mapping, uint8_t *permissions, const uint16_t *flips, uint16_t *readable, uint16_t *accelerators, uint16_t *ram, size_t words,
                    uint16_t *flash, size_t flash_words, uint16_t at, uint16_t value);

/* A reset: the initial tables become the active ones, and the accelerators go on or off by their field. RAM and flash keep their words. */
void luigi_reset(const uint16_t *initial_mapping, const uint8_t *initial_permissions, uint16_t *mapping, uint8_t *permissions, uint16_t *readable,
                 uint16_t *accelerators);

/* ---- runs of reads, and of writes ---- */

/* Reads at the addresses of `at`; the answers go to the first words of `out`. As many are made as there are addresses and places for answers. */
void luigi_reads(const uint16_t *mapping, const uint8_t *permissions, const uint16_t *accelerators, const uint16_t *ram, size_t words, const uint16_t *at,
                 size_t n, uint32_t *out, size_t room);

/* Writes of the words of `value` to the addresses of `at`, as many as there are of both and places in `assigned`, which gets how many mapping entries
   each assigned. */
void luigi_writes(uint16_t *mapping, uint8_t *permissions, const uint16_t *flips, uint16_t *readable, uint16_t *accelerators, uint16_t *ram, size_t words,
                  uint16_t *flash, size_t flash_words, const uint16_t *at, size_t n, const uint16_t *value, size_t m, uint8_t *assigned, size_t room);

/* The same two by the functions that take a cartridge by value, which bench/ measures. The cartridge is as loaded with the tables. */
typedef struct {
    uint16_t mapping[LUIGI_PARAGRAPHS];
    uint8_t permissions[LUIGI_PARAGRAPHS];
    uint16_t readable;
    uint16_t accelerators[LUIGI_ACCELERATORS];
} LuigiActive;

void luigi_reads_by_value(const uint16_t *mapping, const uint8_t *permissions, const uint16_t *flips, const uint16_t *accelerators, const uint16_t *ram,
                          size_t words, const uint16_t *at, size_t n, uint32_t *out, size_t room);
LuigiActive *luigi_writes_by_value(LuigiActive *answer, const uint16_t *mapping, const uint8_t *permissions, const uint16_t *flips,
                                   const uint16_t *accelerators, uint16_t *ram, size_t words, uint16_t *flash, size_t flash_words, const uint16_t *at, size_t n,
                                   const uint16_t *value, size_t m);

/* ---- the cartridge by value ---- */

/* All of a cartridge: the tables as loaded and as they act now, the page flips, how many paragraphs can be read now, and the accelerators. */
typedef struct {
    uint16_t initial_mapping[LUIGI_PARAGRAPHS];
    uint8_t initial_permissions[LUIGI_PARAGRAPHS];
    uint16_t mapping[LUIGI_PARAGRAPHS];
    uint8_t permissions[LUIGI_PARAGRAPHS];
    uint16_t flips[LUIGI_PARAGRAPHS];
    uint16_t readable;
    uint16_t accelerators[LUIGI_ACCELERATORS];
} LuigiState;

/* The cartridge as it is loaded with these tables and accelerators: those that a load answered. */
LuigiState *luigi_state(LuigiState *answer, const uint16_t *mapping, const uint8_t *permissions, const uint16_t *flips, const uint16_t *accelerators);

/* The word at a console address, or LUIGI_SILENCE. */
uint32_t luigi_read_by_value(LuigiState state, const uint16_t *ram, size_t words, uint16_t at);

/* A write: the cartridge that it leaves, and how many mapping entries it assigned. */
typedef struct {
    LuigiState state;
    uint8_t assigned;
} LuigiWrittenState;

LuigiWrittenState *luigi_write_by_value(LuigiWrittenState *answer, LuigiState state, uint16_t *ram, size_t words, uint16_t *flash, size_t flash_words,
                                        uint16_t at, uint16_t value);

/* A reset: RAM and flash are not asked, and keep their words. */
LuigiState *luigi_reset_by_value(LuigiState *answer, LuigiState state);

/* What running a list answers: the lines run, how many answers there are, and the cartridge that the run leaves. A refusal answers the cartridge as it was
   given, and at 29 how many answers there would be. */
typedef struct {
    uint32_t number;
    size_t place, lines, length;
    LuigiState state;
} LuigiRan;

/* Runs a list of bus accesses, a text as `luigi bus` reads it, up to a limit on lines; the words read, or LUIGI_SILENCE, go to the front of `out`. */
LuigiRan *luigi_run(LuigiRan *answer, const uint8_t *list, size_t n, size_t limit, LuigiState state, uint16_t *ram, size_t words, uint16_t *flash,
                    size_t flash_words, uint32_t *out, size_t room);

/* ---- a cartridge that a host keeps ---- */

/* A state with the memory that is lent with every access. The host sets the four pointers and counts, zeroes the RAM and erases the flash (0xFFFF
   throughout, or a saved game) before it loads; the rest is luigi_cartridge_load's. These functions are inline C over the ones above. */
typedef struct {
    LuigiState state;
    uint16_t *ram;
    size_t words;
    uint16_t *flash;
    size_t flash_room;  /* words at `flash`, as many as the host has */
    size_t flash_words; /* how many of them are lent, as many as the image asks for */
} LuigiCartridge;

typedef struct {
    uint32_t number; /* 0 where nothing is refused */
    size_t place;
} LuigiRefusal;

/* Loads an image. Where it is refused, the state and the RAM stay as they were. An image that asks for more flash than there is room for gets 13. */
static inline LuigiRefusal luigi_cartridge_load(LuigiCartridge *c, const uint8_t *image, size_t n) {
    LuigiLoaded l;
    size_t asked = luigi_flash_words(image, n), lent = asked <= c->flash_room ? asked : 0;
    luigi_load(&l, image, n, c->ram, c->words, c->flash, lent);
    LuigiRefusal refusal = {l.number, l.place};
    if (l.number != 0)
        return refusal;
    c->flash_words = lent;
    luigi_state(&c->state, l.mapping, l.permissions, l.flips, l.accelerators);
    return refusal;
}

/* The word at a console address, or LUIGI_SILENCE. */
static inline uint32_t luigi_cartridge_read(const LuigiCartridge *c, uint16_t at) {
    const LuigiState *s = &c->state;
    return luigi_read(s->mapping, s->permissions, s->accelerators, c->ram, c->words, at);
}

/* A write. It answers how many mapping entries it assigned: 16, 8 or 0. */
static inline uint8_t luigi_cartridge_write(LuigiCartridge *c, uint16_t at, uint16_t value) {
    LuigiState *s = &c->state;
    return luigi_write(s->mapping, s->permissions, s->flips, &s->readable, s->accelerators, c->ram, c->words, c->flash, c->flash_words, at, value);
}

static inline void luigi_cartridge_reset(LuigiCartridge *c) {
    LuigiState *s = &c->state;
    luigi_reset(s->initial_mapping, s->initial_permissions, s->mapping, s->permissions, &s->readable, s->accelerators);
}

/* ---- the desk ---- */

enum { LUIGI_NOWHERE = 0, LUIGI_IN_LABEL = 1, LUIGI_IN_IMAGE = 2 };

/* Where a text stands, in the file that the caller lent: its bytes `from` up to `to`, the last not among them. Nothing is copied. */
typedef struct {
    uint32_t number, file; /* LUIGI_NOWHERE where there is no such text */
    size_t place, from, to;
} LuigiFound;

/* The n-th text with a tag, from 1 on: the label's, which may be empty, else the image's. */
LuigiFound *luigi_find(LuigiFound *answer, const uint8_t *label, size_t nlabel, const uint8_t *image, size_t nimage, uint8_t tag, size_t n);

/* What is sound of a damaged image: the blocks kept and left out, and, where stopped is 1, the byte at which it stopped. At 29 length is what is needed. */
typedef struct {
    uint32_t number, stopped;
    size_t place, length, kept, dropped, stop;
} LuigiSalvaged;

LuigiSalvaged *luigi_salvage(LuigiSalvaged *answer, const uint8_t *image, size_t n, uint8_t *out, size_t room);

/* How many blocks a salvage leaves out; the places of the first of them go to `places`, as many as it has room for. */
size_t luigi_drops(const uint8_t *image, size_t n, size_t *places, size_t room);

/* Back to the BIN and the CFG that build an image, each into the front of its buffer. At 29 both lengths are those that are needed. */
typedef struct {
    uint32_t number;
    size_t place, bin, cfg;
} LuigiUnbuilt;

LuigiUnbuilt *luigi_unbuild(LuigiUnbuilt *answer, const uint8_t *image, size_t n, uint8_t *bin, size_t nbin, uint8_t *cfg, size_t ncfg);

#ifdef __cplusplus
}
#endif
#endif
