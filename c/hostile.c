/* What a message may cost: a message of n bytes takes at most 40 n bytes of memory, and a little for a message of few bytes, whatever it says;
 * here it says what is dearest. The counts in front of lists are compared with the bytes that are left before memory is taken.
 * Under callgrind it also counts the instructions of each message, for steps.py, which compares those of a message with those of one of half
 * as many parts. */
#include "ginelm.h"
#include "heap.h"

#include <stdio.h>
#include <stdlib.h>
#include <string.h>
#include <valgrind/callgrind.h>

#define CHECK(x) \
    do { \
        if (!(x)) { \
            fprintf(stderr, "%s:%d: not so: %s\n", __FILE__, __LINE__, #x); \
            exit(1); \
        } \
    } while (0)

/* A message that is being spelled. */
struct message {
    uint8_t *at;
    size_t length, room;
};

static void byte(struct message *m, uint8_t one) {
    if (m->length == m->room) {
        m->room = 2 * m->room + 64;
        m->at = realloc(m->at, m->room);
        CHECK(m->at != NULL);
    }
    m->at[m->length++] = one;
}

static void number(struct message *m, uint64_t value) {
    for (int shift = 56; shift >= 0; shift -= 8) {
        byte(m, (uint8_t)(value >> shift));
    }
}

static void text(struct message *m, const uint8_t *bytes, size_t length) {
    byte(m, (uint8_t)(length >> 8));
    byte(m, (uint8_t)length);
    for (size_t at = 0; at < length; at++) {
        byte(m, bytes[at]);
    }
}

/* A text of three bytes, ascending with the number. */
static void short_text(struct message *m, uint64_t value) {
    const uint8_t bytes[3] = {(uint8_t)(value >> 16), (uint8_t)(value >> 8), (uint8_t)value};
    text(m, bytes, sizeof(bytes));
}

/* A dot of name 2 with an empty value. */
static void value(struct message *m, uint64_t dot) {
    number(m, 2);
    number(m, dot);
    text(m, NULL, 0);
}

/* A delta of this version whose context has all dots of name 2 up to this number. */
static struct message delta(uint8_t version, uint64_t known) {
    struct message m = {NULL, 0, 0};
    byte(&m, version);
    byte(&m, 1);
    number(&m, known > 0);
    if (known > 0) {
        number(&m, 2);
        number(&m, known);
    }
    return m;
}

static struct message many_names(uint64_t count) {
    struct message m = {NULL, 0, 0};
    byte(&m, 1);
    byte(&m, 1);
    number(&m, count);
    for (uint64_t name = 2; name < count + 2; name++) {
        number(&m, name);
        number(&m, 1);
    }
    number(&m, 0);
    number(&m, 0);
    return m;
}

/* Dots of one name, each with a gap before it. */
static struct message many_gaps(uint64_t count) {
    struct message m = delta(1, 0);
    number(&m, count);
    for (uint64_t dot = 1; dot <= count; dot++) {
        number(&m, 2);
        number(&m, 2 * dot);
    }
    number(&m, 0);
    return m;
}

static struct message many_keys(uint64_t count) {
    struct message m = delta(1, count);
    number(&m, 0);
    number(&m, count);
    for (uint64_t key = 1; key <= count; key++) {
        short_text(&m, key);
        number(&m, 1);
        value(&m, key);
    }
    return m;
}

static struct message many_fields(uint64_t count) {
    struct message m = delta(3, count);
    number(&m, 0);
    number(&m, 1);
    short_text(&m, 1);
    number(&m, count);
    for (uint64_t field = 1; field <= count; field++) {
        short_text(&m, field);
        number(&m, 1);
        value(&m, field);
    }
    return m;
}

static struct message many_values(uint64_t count) {
    struct message m = delta(1, count);
    number(&m, 0);
    number(&m, 1);
    short_text(&m, 1);
    number(&m, count);
    for (uint64_t dot = 1; dot <= count; dot++) {
        value(&m, dot);
    }
    return m;
}

/* FNV-1a of 32 bits, by which the paths of keys go. */
static uint32_t hash(uint32_t state, const uint8_t *bytes, size_t length) {
    for (size_t at = 0; at < length; at++) {
        state = (state ^ bytes[at]) * 0x01000193u;
    }
    return state;
}

enum { PIECE = 5, PIECES = 11, ROOM = 1 << 20 };

/* A piece that looks random, and is the same for the same seed. */
static void piece_of(uint64_t seed, uint8_t piece[PIECE]) {
    uint64_t number = (seed + 1) * 0x9e3779b97f4a7c15u;
    number ^= number >> 29;
    number *= 0xbf58476d1ce4e5b9u;
    for (int at = 0; at < PIECE; at++) {
        piece[at] = (uint8_t)(number >> (8 * at + 20));
    }
}

/* Two pieces that lead from a state of the hash to one, the lesser first. Some 80,000 are looked at. */
static uint32_t pair(uint32_t state, uint8_t pieces[2][PIECE]) {
    uint64_t *seeds = calloc(ROOM, sizeof(uint64_t));
    CHECK(seeds != NULL);
    for (uint64_t seed = 1; seed < ROOM; seed++) {
        uint8_t piece[PIECE], other[PIECE];
        piece_of(seed, piece);
        uint32_t end = hash(state, piece, PIECE);
        uint32_t at = end % ROOM;
        for (; seeds[at] != 0; at = (at + 1) % ROOM) {
            piece_of(seeds[at], other);
            int order = memcmp(piece, other, PIECE);
            if (hash(state, other, PIECE) == end && order != 0) {
                memcpy(pieces[order > 0], piece, PIECE);
                memcpy(pieces[order < 0], other, PIECE);
                free(seeds);
                return end;
            }
        }
        seeds[at] = seed;
    }
    CHECK(false);
}

/* Up to 2,048 keys of 55 bytes of one hash, where the count divides that: each is a choice of one piece of each pair. */
static struct message one_hash(uint64_t count) {
    struct message m = delta(1, count);
    uint8_t pieces[PIECES][2][PIECE];
    uint32_t state = 0x811c9dc5u;
    uint64_t apart = (1u << PIECES) / count;
    CHECK(count * apart == 1u << PIECES);
    for (int at = 0; at < PIECES; at++) {
        state = pair(state, pieces[at]);
    }
    number(&m, 0);
    number(&m, count);
    for (uint64_t choice = 0; choice < count; choice++) {
        uint8_t key[PIECES * PIECE];
        for (int at = 0; at < PIECES; at++) {
            memcpy(key + at * PIECE, pieces[at][choice * apart >> (PIECES - 1 - at) & 1], PIECE);
        }
        CHECK(hash(0x811c9dc5u, key, sizeof(key)) == state);
        text(&m, key, sizeof(key));
        number(&m, 1);
        value(&m, choice + 1);
    }
    return m;
}

/* A hello of replica 2 with a context of many names. */
static struct message hello(uint64_t count) {
    struct message m = {NULL, 0, 0};
    byte(&m, 3);
    byte(&m, 3);
    number(&m, 2);
    number(&m, 1);
    number(&m, 1);
    number(&m, count);
    for (uint64_t name = 2; name < count + 2; name++) {
        number(&m, name);
        number(&m, 1);
    }
    number(&m, 0);
    return m;
}

/* A list that is said to be as long as can be, and is not. */
static struct message false_count(uint64_t count) {
    struct message m = delta(1, 0);
    number(&m, count);
    return m;
}

/* Takes the message in at a replica that holds so many keys, and compares the memory that this takes with its bytes. */
static void costs(const char *what, struct message m, int held, uint32_t wanted) {
    ginelm here = {0};
    ginelm_named named;
    char label[64];
    uint32_t outcome = 0;
    uint64_t told = 0;
    CHECK(ginelm_new(&here, 1) == GINELM_DONE);
    for (int key = 0; key < held; key++) {
        CHECK(ginelm_put(&here, (const uint8_t *)&key, sizeof(key), (const uint8_t *)"v", 1, &told) == GINELM_DONE);
    }
    snprintf(label, sizeof(label), "%s, bytes %zu", what, m.length);
    heap_measure();
    CALLGRIND_TOGGLE_COLLECT;
    CHECK(ginelm_take(&here, m.at, m.length, &outcome, &named) == wanted);
    CALLGRIND_TOGGLE_COLLECT;
    CALLGRIND_DUMP_STATS_AT(label);
    size_t most = heap_most();
    printf("%s: %zu bytes take %.1f times as much\n", what, m.length, (double)most / (double)m.length);
    CHECK(most <= 40 * m.length + 4096);
    ginelm_free(&here);
    free(m.at);
}

/* Each kind of message of so many parts. */
static void all_cost(uint64_t count, uint64_t count_of_one_hash, int held) {
    costs("names", many_names(count), held, GINELM_DONE);
    costs("gaps", many_gaps(count), held, GINELM_DONE);
    costs("keys", many_keys(count), held, GINELM_DONE);
    costs("fields", many_fields(count), held, GINELM_DONE);
    costs("values", many_values(count), held, GINELM_DONE);
    costs("keys of one hash", one_hash(count_of_one_hash), held, GINELM_DONE);
    costs("a hello of names", hello(count), held, GINELM_DONE);
    costs("a false count", false_count(UINT64_MAX), held, GINELM_NOT_A_MESSAGE);
}

int main(int count, char **words) {
    bool counts_steps = count == 2 && strcmp(words[1], "steps") == 0;
    all_cost(10000, 2048, 1000);
    if (counts_steps) {
        all_cost(5000, 1024, 1000);
    } else {
        all_cost(10000, 2048, 0);
    }
    return 0;
}
