/* Memory ends at the first request of a call, then at its second, and so on: the call answers OUT_OF_MEMORY each time, and what can be seen of the
 * replica is as before; once memory does not end it does what it does at a replica that has ample memory. Calls that say that they allocate
 * nothing make no request. (A vector that grows asks for less where it is refused, so all requests after the first that is refused are, too.) */
#include "ginelm.h"
#include "heap.h"

#include <stdio.h>
#include <stdlib.h>
#include <string.h>

#define CHECK(x) \
    do { \
        if (!(x)) { \
            fprintf(stderr, "%s:%d: not so: %s\n", __FILE__, __LINE__, #x); \
            exit(1); \
        } \
    } while (0)

/* Bytes that grow. */
struct bytes {
    uint8_t *at;
    size_t length;
};

static void add(struct bytes *to, const void *more, size_t length) {
    to->at = realloc(to->at, to->length + length + 1);
    CHECK(to->at != NULL);
    memcpy(to->at + to->length, more, length);
    to->length += length;
}

static bool same(const struct bytes *one, const struct bytes *other) {
    return one->length == other->length && (one->length == 0 || memcmp(one->at, other->at, one->length) == 0);
}

/* All texts of a handle, each with whom it is for and its length. */
static void add_texts(struct bytes *to, ginelm *here) {
    size_t count = 0;
    CHECK(ginelm_count(here, &count) == GINELM_DONE);
    add(to, &count, sizeof(count));
    for (size_t at = 0; at < count; at++) {
        uint64_t name = 0;
        size_t length = 0;
        (void)ginelm_text(here, at, &name, (uint8_t *)"", 0, &length);
        uint8_t *text = malloc(length + 1);
        CHECK(ginelm_text(here, at, &name, text, length, &length) == GINELM_DONE);
        add(to, &name, sizeof(name));
        add(to, &length, sizeof(length));
        add(to, text, length);
        free(text);
    }
}

static void add_number(struct bytes *to, uint64_t number) {
    for (int shift = 56; shift >= 0; shift -= 8) {
        uint8_t byte = (uint8_t)(number >> shift);
        add(to, &byte, 1);
    }
}

/* What can be seen of a replica: what is saved of it, which is all that it holds and is to send, its digest and size; of each own session what
 * is sent again for it; and of three sessions of replica 3 the page at the root, if its snapshot is kept. */
static struct bytes seen(ginelm *here) {
    struct bytes all = {NULL, 0};
    uint8_t digest[32];
    size_t length = 0, open = 0;
    uint64_t size = 0;
    uint32_t outcome = 0;
    ginelm_named named;
    CHECK(ginelm_save(here) == GINELM_DONE);
    add_texts(&all, here);
    CHECK(ginelm_digest(here, digest, sizeof(digest), &length) == GINELM_DONE);
    add(&all, digest, length);
    CHECK(ginelm_size(here, &size) == GINELM_DONE);
    add(&all, &size, sizeof(size));
    CHECK(ginelm_open(here, &open) == GINELM_DONE);
    for (size_t at = 0; at < open; at++) {
        CHECK(ginelm_session(here, at, &named) == GINELM_DONE);
        add(&all, &named, sizeof(named));
        CHECK(ginelm_retry(here, named.number, &outcome) == GINELM_DONE);
        add_texts(&all, here);
    }
    for (uint64_t number = 1; number <= 3; number++) {
        struct bytes ask = {NULL, 0};
        add(&ask, "\3\5", 2);
        add_number(&ask, 3);
        add_number(&ask, 1);
        add_number(&ask, number);
        add(&ask, "", 1);
        CHECK(ginelm_take(here, ask.at, ask.length, &outcome, &named) == GINELM_DONE);
        add(&all, &outcome, sizeof(outcome));
        add_texts(&all, here);
        free(ask.at);
    }
    return all;
}

/* A call, with what it is made with and what it tells. */
struct call {
    uint32_t (*make)(ginelm *here, struct call *call);
    const uint8_t *key, *field, *value;
    size_t key_length, field_length, value_length;
    uint64_t number;
    uint32_t outcome;
    ginelm_named named;
    bool is;
};

static uint32_t put(ginelm *here, struct call *c) { return ginelm_put(here, c->key, c->key_length, c->value, c->value_length, &c->number); }

static uint32_t put_field(ginelm *here, struct call *c) {
    return ginelm_put_field(here, c->key, c->key_length, c->field, c->field_length, c->value, c->value_length, &c->number);
}

static uint32_t remove_key(ginelm *here, struct call *c) { return ginelm_remove(here, c->key, c->key_length, &c->number); }

static uint32_t remove_field(ginelm *here, struct call *c) {
    return ginelm_remove_field(here, c->key, c->key_length, c->field, c->field_length, &c->number);
}

static uint32_t clear(ginelm *here, struct call *c) { return ginelm_clear(here, &c->number); }

static uint32_t flush(ginelm *here, struct call *c) { return (void)c, ginelm_flush(here); }

static uint32_t flush_at_most(ginelm *here, struct call *c) { return (void)c, ginelm_flush_at_most(here, 400); }

static uint32_t take(ginelm *here, struct call *c) { return ginelm_take(here, c->value, c->value_length, &c->outcome, &c->named); }

static uint32_t take_unguarded(ginelm *here, struct call *c) {
    return ginelm_take_unguarded(here, c->value, c->value_length, &c->outcome, &c->named);
}

static uint32_t has_lost(ginelm *here, struct call *c) { return ginelm_has_lost(here, c->value, c->value_length, &c->is); }

static uint32_t joined_by(ginelm *here, struct call *c) { return ginelm_joined_by(here, c->value, c->value_length); }

static uint32_t ask(ginelm *here, struct call *c) { return ginelm_ask(here, 2, &c->number); }

static uint32_t retry(ginelm *here, struct call *c) { return ginelm_retry(here, 1, &c->outcome); }

static uint32_t get(ginelm *here, struct call *c) { return ginelm_get(here, c->key, c->key_length); }

static uint32_t get_field(ginelm *here, struct call *c) { return ginelm_get_field(here, c->key, c->key_length, c->field, c->field_length); }

static uint32_t values_of_key(ginelm *here, struct call *c) { return ginelm_values_of_key(here, c->key, c->key_length); }

static uint32_t fields(ginelm *here, struct call *c) { return ginelm_fields(here, c->key, c->key_length); }

static uint32_t keys(ginelm *here, struct call *c) { return (void)c, ginelm_keys(here); }

static uint32_t changes(ginelm *here, struct call *c) { return (void)c, ginelm_changes(here); }

static uint32_t contains(ginelm *here, struct call *c) { return ginelm_contains(here, c->key, c->key_length, &c->is); }

static uint32_t save(ginelm *here, struct call *c) { return (void)c, ginelm_save(here); }

/* The texts of a handle, each in memory of its own. */
struct letters {
    struct bytes at[64];
    size_t count;
};

static void gather(ginelm *here, struct letters *all) {
    size_t count = 0, length = 0;
    uint64_t to = 0;
    CHECK(ginelm_count(here, &count) == GINELM_DONE);
    for (size_t at = 0; at < count; at++) {
        CHECK(all->count < sizeof(all->at) / sizeof(all->at[0]));
        struct bytes *letter = &all->at[all->count++];
        (void)ginelm_text(here, at, &to, (uint8_t *)"", 0, &length);
        letter->at = malloc(length + 1);
        letter->length = length;
        CHECK(ginelm_text(here, at, &to, letter->at, length, &length) == GINELM_DONE);
    }
}

/* Two replicas of name 1 at which the same is done: one that is refused memory, and one that is not. */
struct pair {
    ginelm tried, ample;
    size_t refusals;
};

/* What both show, which is the same. */
static void check_both(struct pair *pair) {
    struct bytes tried = seen(&pair->tried), ample = seen(&pair->ample);
    CHECK(same(&tried, &ample));
    free(tried.at);
    free(ample.at);
}

/* Makes the call at the first replica, where memory ends at the request of this number. Whether it came to that: then all is as before. */
static bool is_refused(struct pair *pair, size_t number, const struct call *call, struct call *made) {
    struct bytes texts = {NULL, 0}, left = {NULL, 0}, before = seen(&pair->tried);
    *made = *call;
    add_texts(&texts, &pair->tried);
    heap_refuse_from(number);
    uint32_t answer = made->make(&pair->tried, made);
    bool has_refused = heap_has_refused();
    heap_refuse_from(0);
    CHECK(answer == (has_refused ? GINELM_OUT_OF_MEMORY : GINELM_DONE));
    if (has_refused) {
        CHECK(memcmp(made, call, sizeof(*call)) == 0);
        add_texts(&left, &pair->tried);
        CHECK(same(&texts, &left));
        struct bytes after = seen(&pair->tried);
        CHECK(same(&before, &after));
        free(after.at);
    }
    free(texts.at);
    free(left.at);
    free(before.at);
    return has_refused;
}

/* Makes the call at both replicas, at the first once memory has ended at each of its requests: the texts that it gives. */
static struct letters both(struct pair *pair, struct call call) {
    struct call made, wanted = call;
    struct bytes tried = {NULL, 0}, ample = {NULL, 0};
    struct letters given = {.count = 0};
    check_both(pair);
    for (size_t number = 1; is_refused(pair, number, &call, &made); number++) {
        pair->refusals++;
    }
    CHECK(wanted.make(&pair->ample, &wanted) == GINELM_DONE);
    CHECK(memcmp(&made, &wanted, sizeof(made)) == 0);
    add_texts(&tried, &pair->tried);
    add_texts(&ample, &pair->ample);
    CHECK(same(&tried, &ample));
    gather(&pair->tried, &given);
    check_both(pair);
    free(tried.at);
    free(ample.at);
    return given;
}

static void let_go(struct letters *letters) {
    while (letters->count > 0) {
        free(letters->at[--letters->count].at);
    }
}

/* A call of which nothing more is wanted. */
static void tries(struct pair *pair, struct call call) {
    struct letters given = both(pair, call);
    let_go(&given);
}

static struct call with_value(uint32_t (*make)(ginelm *, struct call *), const uint8_t *value, size_t length) {
    struct call call;
    memset(&call, 0, sizeof(call));
    call.make = make;
    call.value = value;
    call.value_length = length;
    return call;
}

static struct call with_texts(uint32_t (*make)(ginelm *, struct call *), const char *key, const char *field, const char *value) {
    struct call call = with_value(make, (const uint8_t *)value, strlen(value));
    call.key = (const uint8_t *)key;
    call.key_length = strlen(key);
    call.field = (const uint8_t *)field;
    call.field_length = strlen(field);
    return call;
}

static void tries_to_put(struct pair *pair, int number, const char *value) {
    char key[16];
    snprintf(key, sizeof(key), "key %d", number);
    tries(pair, with_texts(put, key, "", value));
}

/* Puts a value on the keys of these numbers at a peer. */
static void fill(ginelm *here, int first, int end, const char *value) {
    for (int number = first; number < end; number++) {
        char key[16];
        uint64_t told = 0;
        int length = snprintf(key, sizeof(key), "key %d", number);
        CHECK(ginelm_put(here, (const uint8_t *)key, (size_t)length, (const uint8_t *)value, strlen(value), &told) == GINELM_DONE);
    }
}

/* Writes, and what is sent for them. */
static void writes(struct pair *pair) {
    for (int number = 0; number < 40; number++) {
        tries_to_put(pair, number, "a value that is longer than what stands in its own place");
    }
    tries(pair, with_texts(flush_at_most, "", "", ""));
    tries_to_put(pair, 1, "2");
    tries(pair, with_texts(put_field, "key 1", "a field", "3"));
    tries(pair, with_texts(put_field, "key 1", "another field", "4"));
    tries(pair, with_texts(flush, "", "", ""));
    tries(pair, with_texts(put_field, "key 1", "a field", "5"));
    tries(pair, with_texts(remove_field, "key 1", "another field", ""));
    tries(pair, with_texts(remove_key, "key 2", "", ""));
    tries(pair, with_texts(remove_key, "no such key", "", ""));
    tries(pair, with_texts(flush, "", "", ""));
    tries(pair, with_texts(flush, "", "", ""));
}

/* A delta of what the peer wrote, which is taken in twice, or is lost. */
static void delta(struct pair *pair, ginelm *peer, bool is_lost) {
    struct letters sent = {.count = 0};
    CHECK(ginelm_flush(peer) == GINELM_DONE);
    gather(peer, &sent);
    CHECK(sent.count == 1);
    for (int turn = 0; turn < 2 && !is_lost; turn++) {
        tries(pair, with_value(has_lost, sent.at[0].at, sent.at[0].length));
        tries(pair, with_value(turn == 0 ? take : take_unguarded, sent.at[0].at, sent.at[0].length));
    }
    let_go(&sent);
}

/* Deltas of one key, behind a lost one, of many keys, and one that takes all away. */
static void deltas(struct pair *pair, ginelm *peer) {
    uint64_t observed = 0;
    fill(peer, 1, 2, "6");
    delta(pair, peer, false);
    fill(peer, 3, 4, "lost");
    delta(pair, peer, true);
    fill(peer, 4, 5, "behind it");
    delta(pair, peer, false);
    fill(peer, 0, 60, "of the peer");
    delta(pair, peer, false);
    CHECK(ginelm_remove(peer, (const uint8_t *)"key 5", 5, &observed) == GINELM_DONE && observed == 1);
    delta(pair, peer, false);
}

/* What is read, where a key has several values. */
static void reads(struct pair *pair) {
    tries(pair, with_texts(get, "key 1", "", ""));
    tries(pair, with_texts(get_field, "key 1", "a field", ""));
    tries(pair, with_texts(values_of_key, "key 1", "", ""));
    tries(pair, with_texts(fields, "key 1", "", ""));
    tries(pair, with_texts(contains, "key 1", "", ""));
    tries(pair, with_texts(keys, "", "", ""));
    tries(pair, with_texts(save, "", "", ""));
    tries(pair, with_texts(changes, "", "", ""));
    tries_to_put(pair, 7, "changed");
    tries(pair, with_texts(changes, "", "", ""));
}

/* Moves the letters of the second behind those of the first. */
static void append(struct letters *to, struct letters more) {
    for (size_t at = 0; at < more.count; at++) {
        CHECK(to->count < sizeof(to->at) / sizeof(to->at[0]));
        to->at[to->count++] = more.at[at];
    }
}

/* A synchronisation that the pair asks for, from its hello to its last page, with a write in its midst. */
static void asks(struct pair *pair, ginelm *peer) {
    ginelm_named named;
    uint32_t outcome = 0;
    struct letters letters = both(pair, with_texts(ask, "", "", ""));
    tries(pair, with_texts(retry, "", "", ""));
    while (letters.count > 0) {
        struct letters answers = {.count = 0};
        struct bytes letter = letters.at[--letters.count];
        CHECK(ginelm_take(peer, letter.at, letter.length, &outcome, &named) == GINELM_DONE && outcome == GINELM_SENT);
        gather(peer, &answers);
        CHECK(answers.count == 1);
        tries(pair, with_value(joined_by, answers.at[0].at, answers.at[0].length));
        append(&letters, both(pair, with_value(take, answers.at[0].at, answers.at[0].length)));
        let_go(&answers);
        free(letter.at);
        tries_to_put(pair, 9, "in its midst");
    }
    size_t open = 9;
    CHECK(ginelm_open(&pair->tried, &open) == GINELM_DONE && open == 0);
}

/* A synchronisation that replica 3 asks the pair for. */
static void answers(struct pair *pair, ginelm *peer) {
    ginelm_named named;
    uint32_t outcome = 0;
    uint64_t number = 0;
    struct letters letters = {.count = 0};
    CHECK(ginelm_ask(peer, 1, &number) == GINELM_DONE);
    gather(peer, &letters);
    while (letters.count > 0) {
        struct bytes letter = letters.at[--letters.count];
        struct letters given = both(pair, with_value(take, letter.at, letter.length));
        CHECK(given.count == 1);
        CHECK(ginelm_take(peer, given.at[0].at, given.at[0].length, &outcome, &named) == GINELM_DONE);
        gather(peer, &letters);
        let_go(&given);
        free(letter.at);
    }
    CHECK(outcome == GINELM_ENDED);
}

/* What makes a replica of a handle that has none. */
static uint32_t make_new(ginelm *here, struct call *c) { return (void)c, ginelm_new(here, 1); }

static uint32_t resume(ginelm *here, struct call *c) { return ginelm_resume(here, c->value, c->value_length); }

static uint32_t new_from(ginelm *here, struct call *c) { return ginelm_new_from(here, 9, c->value, c->value_length); }

static size_t makes(struct call call) {
    ginelm tried = {0}, ample = {0};
    size_t refusals = 0;
    CHECK(call.make(&ample, &call) == GINELM_DONE);
    for (size_t number = 1;; number++) {
        heap_refuse_from(number);
        uint32_t answer = call.make(&tried, &call);
        bool has_refused = heap_has_refused();
        heap_refuse_from(0);
        CHECK(answer == (has_refused ? GINELM_OUT_OF_MEMORY : GINELM_DONE));
        if (!has_refused) {
            break;
        }
        CHECK(tried.at == NULL);
        refusals++;
    }
    struct bytes one = seen(&tried), other = seen(&ample);
    CHECK(same(&one, &other));
    free(one.at);
    free(other.at);
    ginelm_free(&tried);
    ginelm_free(&ample);
    return refusals;
}

/* A replica that is made, and one that comes back from what is saved of the first of the pair. */
static size_t made_again(struct pair *pair) {
    struct letters saved = {.count = 0};
    size_t refusals = makes(with_texts(make_new, "", "", ""));
    CHECK(ginelm_save(&pair->tried) == GINELM_DONE);
    gather(&pair->tried, &saved);
    refusals += makes(with_value(resume, saved.at[0].at, saved.at[0].length));
    refusals += makes(with_value(new_from, saved.at[0].at, saved.at[0].length));
    let_go(&saved);
    return refusals;
}

/* Snapshots of the first replica, by which the calls that read them are tried. */
struct snapshots {
    ginelm_snapshot older, here;
    bool is_there;
};

static uint32_t snapshot_get(struct snapshots *of) { return ginelm_snapshot_get(&of->here, (const uint8_t *)"key 1", 5); }

static uint32_t snapshot_get_field(struct snapshots *of) {
    return ginelm_snapshot_get_field(&of->here, (const uint8_t *)"key 1", 5, (const uint8_t *)"a field", 7);
}

static uint32_t snapshot_values(struct snapshots *of) { return ginelm_snapshot_values_of_key(&of->here, (const uint8_t *)"key 1", 5); }

static uint32_t snapshot_fields(struct snapshots *of) { return ginelm_snapshot_fields(&of->here, (const uint8_t *)"key 1", 5); }

static uint32_t snapshot_keys(struct snapshots *of) { return ginelm_snapshot_keys(&of->here); }

static uint32_t snapshot_contains(struct snapshots *of) {
    return ginelm_snapshot_contains(&of->here, (const uint8_t *)"key 1", 5, &of->is_there);
}

static uint32_t snapshot_changes(struct snapshots *of) { return ginelm_snapshot_changes(&of->older, &of->here); }

/* All that can be seen of a snapshot without a call that may be refused. */
static struct bytes snapshot_seen(ginelm_snapshot *here) {
    struct bytes all = {NULL, 0};
    uint8_t digest[32];
    size_t length = 0, count = 0;
    uint64_t size = 0;
    CHECK(ginelm_snapshot_digest(here, digest, sizeof(digest), &length) == GINELM_DONE);
    add(&all, digest, length);
    CHECK(ginelm_snapshot_size(here, &size) == GINELM_DONE);
    add(&all, &size, sizeof(size));
    CHECK(ginelm_snapshot_count(here, &count) == GINELM_DONE);
    for (size_t at = 0; at < count; at++) {
        uint8_t text[64];
        CHECK(ginelm_snapshot_text(here, at, text, sizeof(text), &length) == GINELM_DONE);
        add(&all, &length, sizeof(length));
        add(&all, text, length);
    }
    return all;
}

/* Makes the read once memory has ended at each of its requests: how many these were. */
static size_t reads_snapshot(struct snapshots *of, uint32_t (*make)(struct snapshots *of)) {
    for (size_t number = 1;; number++) {
        struct bytes before = snapshot_seen(&of->here);
        of->is_there = false;
        heap_refuse_from(number);
        uint32_t answer = make(of);
        bool has_refused = heap_has_refused();
        heap_refuse_from(0);
        CHECK(answer == (has_refused ? GINELM_OUT_OF_MEMORY : GINELM_DONE));
        struct bytes after = snapshot_seen(&of->here);
        CHECK(!has_refused || (same(&before, &after) && !of->is_there));
        free(before.at);
        free(after.at);
        if (!has_refused) {
            return number - 1;
        }
    }
}

/* Takes a snapshot once memory has ended at each of its requests: how many these were. */
static size_t takes_snapshot(ginelm_snapshot *here, ginelm *replica) {
    for (size_t number = 1;; number++) {
        struct bytes before = seen(replica);
        heap_refuse_from(number);
        uint32_t answer = ginelm_snapshot_take(here, replica);
        bool has_refused = heap_has_refused();
        heap_refuse_from(0);
        CHECK(answer == (has_refused ? GINELM_OUT_OF_MEMORY : GINELM_DONE));
        CHECK((here->at == NULL) == has_refused);
        struct bytes after = seen(replica);
        CHECK(same(&before, &after));
        free(before.at);
        free(after.at);
        if (!has_refused) {
            return number - 1;
        }
    }
}

/* Two snapshots with writes between them, each read, and calls that say that they allocate nothing. A third one is of what was not written since:
 * it takes the memory of its own handle alone. */
static size_t snapshots(struct pair *pair) {
    struct snapshots of = {{0}, {0}, false};
    static uint32_t (*const READS[])(struct snapshots *) = {snapshot_get,  snapshot_get_field, snapshot_values, snapshot_fields,
                                                            snapshot_keys, snapshot_contains,  snapshot_changes};
    ginelm_snapshot third = {0};
    uint8_t out[64];
    size_t count = 0;
    uint64_t size = 0;
    size_t refusals = takes_snapshot(&of.older, &pair->tried);
    tries_to_put(pair, 1, "between two snapshots");
    tries_to_put(pair, 90, "between two snapshots");
    refusals += takes_snapshot(&of.here, &pair->tried);
    for (size_t at = 0; at < sizeof(READS) / sizeof(READS[0]); at++) {
        refusals += reads_snapshot(&of, READS[at]);
    }
    heap_refuse_from(1);
    CHECK(ginelm_snapshot_size(&of.here, &size) == GINELM_DONE && size > 0);
    CHECK(ginelm_snapshot_digest(&of.here, out, sizeof(out), &count) == GINELM_DONE && count == 32);
    CHECK(ginelm_snapshot_count(&of.here, &count) == GINELM_DONE && count == 2);
    CHECK(ginelm_snapshot_text(&of.here, 0, out, sizeof(out), &count) == GINELM_DONE && count == 5);
    CHECK(heap_requests() == 0);
    heap_refuse_from(0);
    CHECK(ginelm_snapshot_take(&third, &pair->tried) == GINELM_DONE && heap_requests() == 1);
    ginelm_snapshot_free(&third);
    ginelm_snapshot_free(&of.older);
    ginelm_snapshot_free(&of.here);
    return refusals;
}

/* Calls that say that they allocate nothing. */
static void take_no_memory(ginelm *here) {
    uint64_t number = 0;
    size_t count = 0;
    bool is = false;
    uint8_t out[64];
    CHECK(ginelm_ask(here, 2, &number) == GINELM_DONE);
    heap_refuse_from(1);
    CHECK(ginelm_name(here, &number) == GINELM_DONE && number == 1);
    CHECK(ginelm_size(here, &number) == GINELM_DONE && number > 0);
    CHECK(ginelm_digest(here, out, sizeof(out), &count) == GINELM_DONE && count == 32);
    CHECK(ginelm_knows(here, 1, 1, &is) == GINELM_DONE && is);
    CHECK(ginelm_count(here, &count) == GINELM_DONE && count == 1);
    CHECK(ginelm_text(here, 0, &number, out, 0, &count) == GINELM_SHORT && number == 2);
    CHECK(ginelm_word(1, out, sizeof(out), &count) == GINELM_DONE);
    CHECK(ginelm_abandon(here, 2, &is) == GINELM_DONE && is);
    CHECK(heap_requests() == 0);
    heap_refuse_from(0);
}

int main(void) {
    struct pair pair = {{0}, {0}, 0};
    ginelm second = {0}, third = {0};
    CHECK(ginelm_new(&pair.tried, 1) == GINELM_DONE && ginelm_new(&pair.ample, 1) == GINELM_DONE);
    CHECK(ginelm_new(&second, 2) == GINELM_DONE && ginelm_new(&third, 3) == GINELM_DONE);
    writes(&pair);
    deltas(&pair, &second);
    reads(&pair);
    answers(&pair, &third);
    fill(&second, 30, 80, "newer");
    asks(&pair, &second);
    answers(&pair, &third);
    size_t refusals = made_again(&pair) + snapshots(&pair);
    tries(&pair, with_texts(clear, "", "", ""));
    tries_to_put(&pair, 1, "after all");
    take_no_memory(&pair.ample);
    ginelm_free(&pair.ample);
    ginelm_free(&pair.tried);
    ginelm_free(&second);
    ginelm_free(&third);
    printf("memory ended at %zu requests, one by one\n", pair.refusals + refusals);
    return 0;
}
