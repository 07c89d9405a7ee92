/*
 * Hostile messages, made by libFuzzer: three replicas write, flush, synchronise, are saved and come back, and take in messages that were cut,
 * lengthened, changed, joined and made up. A refused message changes nothing, what was saved comes back, and in the end all
 * synchronise, and hold the same where no made up message was taken.
 *
 *     c/build.sh && clang -std=c11 -g -O1 -fsanitize=fuzzer,address -Ibuild c/fuzz.c build/libginelm.a -o build/fuzz
 *     tar -xzf c/corpus.tar.gz -C build && build/fuzz -max_total_time=3600 build/corpus
 *
 * The corpus is kept small by `build/fuzz -merge=1 EMPTY build/corpus`; c/test.sh tries each of its files once.
 * The library itself is not instrumented: what came of each call is told to the fuzzer by counters.
 */
#include "ginelm.h"

#include <stdio.h>
#include <stdlib.h>
#include <string.h>

enum { REPLICAS = 3, LETTERS = 64, ROOM = 1 << 16, CALLS = 14 };

/* What libFuzzer takes for covered. */
__attribute__((section("__libfuzzer_extra_counters"))) static uint8_t counters[4096];

typedef struct {
    uint8_t *bytes;
    size_t length;
} letter;

typedef struct {
    ginelm replicas[REPLICAS];
    ginelm_snapshot snapshots[REPLICAS]; /* each replica's at its last call for changes, if it was not restarted since */
    letter letters[LETTERS];
    size_t count; /* of all letters that were sent; the last ones are kept */
    bool is_forging; /* a message that no replica sent is being taken */
    bool is_forged; /* a message that no replica sent was taken: it may give one write two values, of which nothing is promised */
} world;

/* The bytes that are left to be read. */
typedef struct {
    const uint8_t *at;
    size_t left;
} input;

#define WANT(what)                                                                                                                                                                 \
    do {                                                                                                                                                                           \
        if (!(what)) {                                                                                                                                                             \
            fprintf(stderr, "line %d: %s\n", __LINE__, #what);                                                                                                                     \
            abort();                                                                                                                                                               \
        }                                                                                                                                                                          \
    } while (0)

static uint8_t next(input *in) {
    if (in->left == 0) return 0;
    in->left--;
    return *in->at++;
}

static void note(unsigned call, unsigned came, unsigned more) { counters[(call * 300 + came * 20 + more) % sizeof counters]++; }

static void send(world *w, const uint8_t *bytes, size_t length) {
    letter *it = &w->letters[w->count++ % LETTERS];
    free(it->bytes);
    it->bytes = malloc(length + 1);
    WANT(it->bytes != NULL);
    memcpy(it->bytes, bytes, length);
    it->length = length;
}

/* Sends all texts of the replica. */
static unsigned send_all(world *w, ginelm *from) {
    static uint8_t room[ROOM];
    size_t count = 0;
    WANT(ginelm_count(from, &count) == GINELM_DONE);
    for (size_t at = 0; at < count; at++) {
        uint64_t to;
        size_t needed;
        uint32_t told = ginelm_text(from, at, &to, room, sizeof room, &needed);
        if (told == GINELM_DONE) send(w, room, needed);
    }
    return count > 9 ? 9 : (unsigned)count;
}

static void look(ginelm *here, uint8_t digest[32], size_t *length, uint64_t *size) {
    WANT(ginelm_digest(here, digest, 32, length) == GINELM_DONE);
    WANT(ginelm_size(here, size) == GINELM_DONE);
}

/* Takes the bytes in, though they tell of a lost memory: then the call that asks first says so, and changes nothing. */
static uint32_t take_anyway(world *w, ginelm *here, const uint8_t *bytes, size_t length, uint32_t *outcome, ginelm_named *session) {
    bool lost = false;
    uint8_t before[32] = {0}, after[32] = {0};
    size_t old = 0, new = 0;
    uint64_t size = 0, now = 0;
    uint32_t told = ginelm_has_lost(here, bytes, length, &lost);
    WANT(!lost || w->is_forged || w->is_forging);
    if (told != GINELM_DONE || !lost) return ginelm_take(here, bytes, length, outcome, session);
    look(here, before, &old, &size);
    WANT(ginelm_take(here, bytes, length, outcome, session) == GINELM_LOST_MEMORY && *outcome == 0);
    look(here, after, &new, &now);
    WANT(old == new && size == now && memcmp(before, after, old) == 0);
    return ginelm_take_unguarded(here, bytes, length, outcome, session);
}

/* Takes the bytes in, once it was asked what they bring. That, and a refused message, changes nothing. */
static void take(world *w, unsigned call, ginelm *here, const uint8_t *bytes, size_t length) {
    uint8_t before[32] = {0}, after[32] = {0};
    size_t old = 0, new = 0;
    uint64_t size = 0, now = 0;
    look(here, before, &old, &size);
    uint32_t outcome = 0;
    ginelm_named session;
    w->is_forging = call > 5;
    uint32_t asked = ginelm_joined_by(here, bytes, length);
    look(here, after, &new, &now);
    WANT(old == new && size == now && memcmp(before, after, old) == 0);
    uint32_t told = take_anyway(w, here, bytes, length, &outcome, &session);
    WANT(asked == told);
    if (told != GINELM_DONE) {
        WANT(told == GINELM_NOT_A_MESSAGE);
        look(here, after, &new, &now);
        WANT(old == new && size == now && memcmp(before, after, old) == 0);
        note(call, 12, length > 1 ? bytes[1] % 20 : 19);
        return;
    }
    if (call > 5 && outcome <= GINELM_ENDED) w->is_forged = true;
    unsigned sent = send_all(w, here);
    note(call, outcome, sent);
    note(call + CALLS, outcome, bytes[1] % 20);
}

static letter *chosen(world *w, input *in) {
    size_t kept = w->count < LETTERS ? w->count : LETTERS;
    return kept == 0 ? NULL : &w->letters[(w->count - 1 - next(in) % kept) % LETTERS];
}

/* Takes a letter in that was changed: a byte of it, its length, or its end. */
static void take_changed(world *w, ginelm *here, input *in) {
    letter *it = chosen(w, in);
    if (it == NULL) return;
    size_t length = it->length;
    uint8_t *bytes = malloc(length + 64);
    WANT(bytes != NULL);
    memcpy(bytes, it->bytes, length);
    switch (next(in) % 4) {
    case 0:
        for (unsigned times = next(in) % 4 + 1; times > 0; times--) bytes[(next(in) * 256u + next(in)) % length] ^= next(in);
        break;
    case 1:
        length = (next(in) * 256u + next(in)) % length;
        break;
    case 2:
        for (unsigned more = next(in) % 64; more > 0; more--) bytes[length++] = next(in);
        break;
    default:
        memset(bytes + (next(in) * 256u + next(in)) % length, next(in), 1);
        bytes[length - 1 - next(in) % length] = next(in);
    }
    take(w, 6, here, bytes, length);
    free(bytes);
}

/* Takes in the front of one letter and the end of another. */
static void take_joined(world *w, ginelm *here, input *in) {
    letter *one = chosen(w, in), *two = chosen(w, in);
    if (one == NULL) return;
    size_t front = (next(in) * 256u + next(in)) % (one->length + 1), end = (next(in) * 256u + next(in)) % (two->length + 1);
    uint8_t *bytes = malloc(front + end + 1);
    WANT(bytes != NULL);
    memcpy(bytes, one->bytes, front);
    memcpy(bytes + front, two->bytes + two->length - end, end);
    take(w, 7, here, bytes, front + end);
    free(bytes);
}

/* Saves the replica and has it come back; what was saved and then changed is refused, or comes back as it says. */
static void restart(ginelm *here, input *in) {
    static uint8_t room[ROOM];
    uint64_t to;
    size_t needed;
    WANT(ginelm_save(here) == GINELM_DONE);
    if (ginelm_text(here, 0, &to, room, sizeof room, &needed) != GINELM_DONE) return;
    uint8_t before[32] = {0}, after[32] = {0};
    size_t old = 0, new = 0;
    uint64_t size = 0, now = 0;
    look(here, before, &old, &size);
    ginelm other = {0};
    WANT(ginelm_resume(&other, room, needed) == GINELM_DONE);
    look(&other, after, &new, &now);
    WANT(old == new && size == now && memcmp(before, after, old) == 0);
    ginelm_free(here);
    *here = other;
    ginelm changed = {0};
    room[(next(in) * 256u + next(in)) % needed] ^= next(in);
    uint32_t told = ginelm_resume(&changed, room, needed);
    WANT(told == GINELM_DONE || told == GINELM_NOT_A_MESSAGE);
    note(8, told, 0);
    ginelm_free(&changed);
}

/* Takes a snapshot in the place of an older one: it has the replica's digest, and so many keys differ. */
static void snapshot(ginelm *here, ginelm_snapshot *older, size_t differ) {
    ginelm_snapshot newer = {0};
    uint8_t wanted[32] = {0}, digest[32] = {0};
    size_t length = 0, needed = 0, count = 0;
    uint64_t size = 0, told = 0;
    WANT(ginelm_snapshot_take(&newer, here) == GINELM_DONE);
    look(here, wanted, &length, &size);
    WANT(ginelm_snapshot_digest(&newer, digest, 32, &needed) == GINELM_DONE && needed == length && memcmp(wanted, digest, length) == 0);
    WANT(ginelm_snapshot_size(&newer, &told) == GINELM_DONE && told == size);
    if (older->at != NULL) {
        WANT(ginelm_snapshot_changes(older, &newer) == GINELM_DONE && ginelm_snapshot_count(&newer, &count) == GINELM_DONE && count == differ);
    }
    ginelm_snapshot_free(older);
    *older = newer;
}

static void call(world *w, input *in) {
    unsigned kind = next(in) % CALLS, name = next(in) % REPLICAS;
    ginelm *here = &w->replicas[name];
    uint8_t key = next(in) % 8, value = next(in);
    uint64_t number = 0;
    uint32_t outcome = 0;
    letter *it;
    switch (kind) {
    case 0:
        WANT(ginelm_put(here, &key, 1, &value, 1, &number) == GINELM_DONE || number == 0);
        break;
    case 1:
        WANT(ginelm_put_field(here, &key, 1, &value, 1, &value, 1, &number) == GINELM_DONE || number == 0);
        break;
    case 2:
        WANT(ginelm_remove(here, &key, 1, &number) == GINELM_DONE);
        break;
    case 3:
        WANT(ginelm_flush(here) == GINELM_DONE);
        send_all(w, here);
        break;
    case 4:
        if (ginelm_ask(here, (name + 1 + value % 2) % REPLICAS + 1, &number) == GINELM_DONE) send_all(w, here);
        break;
    case 5:
        it = chosen(w, in);
        if (it != NULL) {
            letter copy = {malloc(it->length + 1), it->length};
            WANT(copy.bytes != NULL);
            memcpy(copy.bytes, it->bytes, it->length);
            take(w, kind, here, copy.bytes, copy.length);
            free(copy.bytes);
        }
        break;
    case 6:
        take_changed(w, here, in);
        break;
    case 7:
        take_joined(w, here, in);
        break;
    case 8:
        restart(here, in);
        ginelm_snapshot_free(&w->snapshots[name]);
        break;
    case 9:
        WANT(ginelm_retry(here, value % 12, &outcome) == GINELM_DONE);
        note(kind, outcome, send_all(w, here));
        break;
    case 10: {
        bool was;
        WANT(ginelm_abandon(here, value % 12, &was) == GINELM_DONE);
        break;
    }
    case 11: {
        size_t length = value < in->left ? value : in->left;
        take(w, kind, here, in->at, length);
        in->at += length;
        in->left -= length;
        break;
    }
    case 12: {
        size_t count = 0;
        WANT(ginelm_changes(here) == GINELM_DONE && ginelm_count(here, &count) == GINELM_DONE);
        note(kind, (unsigned)(count % 16), 0);
        snapshot(here, &w->snapshots[name], count);
        WANT(ginelm_changes(here) == GINELM_DONE && ginelm_count(here, &count) == GINELM_DONE && count == 0);
        break;
    }
    default:
        WANT(ginelm_clear(here, &number) == GINELM_DONE);
    }
}

/* Brings what the answerer has to the asker, by all letters that the two send. Answers whether it ended. */
static bool synchronise(world *w, ginelm *asker, ginelm *answerer) {
    uint64_t name, number;
    bool was;
    for (number = 0; number < 64; number++) ginelm_abandon(asker, number, &was);
    size_t open = 0;
    WANT(ginelm_open(asker, &open) == GINELM_DONE);
    for (; open > 0; ginelm_open(asker, &open)) {
        ginelm_named session;
        WANT(ginelm_session(asker, 0, &session) == GINELM_DONE);
        WANT(ginelm_abandon(asker, session.number, &was) == GINELM_DONE);
    }
    WANT(ginelm_name(answerer, &name) == GINELM_DONE);
    if (ginelm_ask(asker, name, &number) != GINELM_DONE) return false;
    size_t from = w->count;
    send_all(w, asker);
    while (from < w->count) {
        if (w->count - from > LETTERS) return false;
        letter it = w->letters[from++ % LETTERS];
        uint8_t *bytes = malloc(it.length + 1);
        WANT(bytes != NULL);
        memcpy(bytes, it.bytes, it.length);
        bool is_for_answerer = bytes[1] == 3 || bytes[1] == 5;
        uint32_t outcome = 0;
        ginelm_named session;
        w->is_forging = false;
        WANT(take_anyway(w, is_for_answerer ? answerer : asker, bytes, it.length, &outcome, &session) == GINELM_DONE);
        free(bytes);
        if (outcome == GINELM_ENDED) return true;
        send_all(w, is_for_answerer ? answerer : asker);
    }
    return false;
}

/* Each asks the next, twice around. */
static bool settle(world *w) {
    for (unsigned turn = 0; turn < 2 * REPLICAS; turn++)
        if (!synchronise(w, &w->replicas[turn % REPLICAS], &w->replicas[(turn + 1) % REPLICAS])) return false;
    return true;
}

int LLVMFuzzerTestOneInput(const uint8_t *data, size_t size) {
    world w = {0};
    input in = {data, size};
    for (unsigned name = 0; name < REPLICAS; name++) WANT(ginelm_new(&w.replicas[name], name + 1) == GINELM_DONE);
    for (unsigned times = 0; in.left > 0 && times < 400; times++) call(&w, &in);
    if (settle(&w) && !w.is_forged) {
        uint8_t digests[REPLICAS][32] = {{0}};
        size_t lengths[REPLICAS] = {0};
        uint64_t sizes[REPLICAS] = {0};
        for (unsigned name = 0; name < REPLICAS; name++) look(&w.replicas[name], digests[name], &lengths[name], &sizes[name]);
        for (unsigned name = 1; name < REPLICAS; name++)
            WANT(lengths[name] == lengths[0] && sizes[name] == sizes[0] && memcmp(digests[name], digests[0], 32) == 0);
        note(2 * CALLS, sizes[0] % 10, 0);
    }
    for (unsigned name = 0; name < REPLICAS; name++) {
        ginelm_free(&w.replicas[name]);
        ginelm_snapshot_free(&w.snapshots[name]);
    }
    for (unsigned at = 0; at < LETTERS; at++) free(w.letters[at].bytes);
    return 0;
}
