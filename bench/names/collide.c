// collide fold WORD.. | collide sip: prints names of six characters, a line each, whose hashes name one group of a table's index.
// A table of so many names has 2^14 groups of twelve; the lowest bits of a hash say with which group a look-up begins.
//   fold WORD..  hashed as the kit hashes without a key, after these numbers: what a name is hashed after in a key of several parts
//   sip          hashed as a table hashes whose seed is made from the names of standard input, a line each
#include <stdint.h>
#include <stdio.h>
#include <stdlib.h>
#include <string.h>

enum { SIZE = 6, GROUPS = 1 << 14, MOST = 131000 };
static const char letters[] = "ABCDEFGHIJKLMNOPQRSTUVWXYZ0123456789";
static const uint64_t multiplier = 0x9e3779b97f4a7c15;

static uint64_t folded(uint64_t a, uint64_t b) {
    unsigned __int128 product = (unsigned __int128)a * b;
    return (uint64_t)product ^ (uint64_t)(product >> 64);
}

static uint64_t fold_word(uint64_t state, uint64_t word) { return folded(state ^ word, multiplier ^ 16); }

static uint64_t fold_byte(uint64_t state, uint64_t byte) { return folded(state ^ (byte * 0x10101), multiplier ^ 2); }

typedef struct {
    uint64_t v0, v1, v2, v3, tail, length;
} Sip;

static uint64_t turned(uint64_t x, int by) { return x << by | x >> (64 - by); }

static void sip_round(Sip *s) {
    s->v0 += s->v1;
    s->v2 += s->v3;
    s->v1 = turned(s->v1, 13) ^ s->v0;
    s->v3 = turned(s->v3, 16) ^ s->v2;
    s->v0 = turned(s->v0, 32);
    s->v2 += s->v1;
    s->v0 += s->v3;
    s->v1 = turned(s->v1, 17) ^ s->v2;
    s->v3 = turned(s->v3, 21) ^ s->v0;
    s->v2 = turned(s->v2, 32);
}

static void sip_absorb(Sip *s, uint64_t word) {
    s->v3 ^= word;
    sip_round(s);
    s->v0 ^= word;
}

static Sip sip_new(void) { return (Sip){0x736f6d6570736575, 0x646f72616e646f6d, 0x6c7967656e657261, 0x7465646279746573, 0, 0}; }

static void sip_byte(Sip *s, uint8_t byte) {
    s->tail |= (uint64_t)byte << (8 * (s->length % 8));
    if (++s->length % 8 == 0) {
        sip_absorb(s, s->tail);
        s->tail = 0;
    }
}

static void sip_word(Sip *s, uint64_t word) {
    for (int i = 0; i < 8; i++) sip_byte(s, word >> (8 * i));
}

static uint64_t sip_finish(Sip s) {
    sip_absorb(&s, s.length << 56 | s.tail);
    s.v2 ^= 0xff;
    sip_round(&s);
    sip_round(&s);
    sip_round(&s);
    return s.v0 ^ s.v1 ^ s.v2 ^ s.v3;
}

static uint32_t in_table(uint64_t hash) { return (uint32_t)(hash ^ hash >> 32) & (GROUPS - 1); }

// The seed of ss_names_declarations, made from the names of standard input.
static Sip seed_of_names(void) {
    Sip keys = sip_new();
    char line[64];
    while (fgets(line, sizeof line, stdin)) {
        size_t n = strcspn(line, "\n");
        sip_word(&keys, n);
        for (size_t i = 0; i < n; i++) sip_byte(&keys, line[i]);
    }
    Sip other = keys, start = sip_new();
    sip_byte(&other, 0xff);
    sip_word(&start, sip_finish(keys));
    sip_word(&start, sip_finish(other));
    return start;
}

static char name[SIZE + 1];
static int found;

static void print_if(uint64_t hash) {
    if (in_table(hash) == 0 && found < MOST && name[0] > '9') {
        puts(name);
        found++;
    }
}

static void fold_names(uint64_t state, int at) {
    if (at == SIZE) {
        print_if(state);
        return;
    }
    for (const char *it = letters; *it && found < MOST; it++) {
        name[at] = *it;
        fold_names(fold_byte(state, *it), at + 1);
    }
}

static void sip_names(const Sip *state, int at) {
    if (at == SIZE) {
        print_if(sip_finish(*state));
        return;
    }
    for (const char *it = letters; *it && found < MOST; it++) {
        name[at] = *it;
        Sip next = *state;
        sip_byte(&next, *it);
        sip_names(&next, at + 1);
    }
}

int main(int argc, char **argv) {
    if (argc > 1 && !strcmp(argv[1], "fold")) {
        uint64_t state = 0x243f6a8885a308d3;
        for (int i = 2; i < argc; i++) state = fold_word(state, strtoull(argv[i], 0, 10));
        fold_names(fold_word(state, SIZE), 0);
    } else {
        Sip start = seed_of_names();
        sip_word(&start, SIZE);
        sip_names(&start, 0);
    }
    return 0;
}
