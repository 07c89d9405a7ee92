/* Each call of the library: what it answers, wrong lengths, null texts, random messages, a synchronisation, a handle a thread, and readers of
 * snapshots on threads of their own. */
#include "ginelm.h"

#include <pthread.h>
#include <stdio.h>
#include <stdlib.h>
#include <string.h>

#define CHECK(x) \
    do { \
        if (!(x)) { \
            fprintf(stderr, "%s:%d: not so: %s\n", __FILE__, __LINE__, #x); \
            exit(1); \
        } \
    } while (0)
#define T(text) (const uint8_t *)(text), sizeof(text) - 1

/* What a handle's text at a place is, in memory of its own. */
struct letter {
    uint64_t to;
    uint8_t *bytes;
    size_t length;
};

static struct letter text_at(ginelm *here, size_t at) {
    struct letter letter = {0, NULL, 0};
    uint32_t answer = ginelm_text(here, at, &letter.to, (uint8_t *)"", 0, &letter.length);
    CHECK(answer == (letter.length == 0 ? GINELM_DONE : GINELM_SHORT));
    letter.bytes = malloc(letter.length + 1);
    size_t again = 0;
    CHECK(ginelm_text(here, at, &letter.to, letter.bytes, letter.length, &again) == GINELM_DONE);
    CHECK(again == letter.length);
    return letter;
}

static size_t count_of(ginelm *here) {
    size_t count = 99;
    CHECK(ginelm_count(here, &count) == GINELM_DONE);
    return count;
}

static void shows(ginelm *here, size_t at, const char *wanted) {
    struct letter found = text_at(here, at);
    CHECK(found.to == 0 && found.length == strlen(wanted) && memcmp(found.bytes, wanted, found.length) == 0);
    free(found.bytes);
}

static void put(ginelm *here, const char *key, const char *value) {
    uint64_t number = 0;
    CHECK(ginelm_put(here, (const uint8_t *)key, strlen(key), (const uint8_t *)value, strlen(value), &number) == GINELM_DONE);
    CHECK(number != 0);
}

/* All letters that a handle has as texts. */
struct letters {
    struct letter at[4096];
    size_t count;
};

static void gather(ginelm *here, struct letters *all) {
    size_t count = count_of(here);
    for (size_t at = 0; at < count; at++) {
        CHECK(all->count < sizeof(all->at) / sizeof(all->at[0]));
        all->at[all->count++] = text_at(here, at);
    }
}

/* Brings what the second has seen to the first. */
static void synchronise(ginelm *asker, uint64_t asker_name, ginelm *answerer, uint64_t answerer_name) {
    struct letters *all = calloc(1, sizeof(*all));
    uint64_t number = 0;
    size_t open = 9;
    uint32_t outcome = 0;
    ginelm_named named = {0};
    CHECK(ginelm_ask(asker, answerer_name, &number) == GINELM_DONE);
    CHECK(ginelm_open(asker, &open) == GINELM_DONE && open == 1);
    CHECK(ginelm_session(asker, 0, &named) == GINELM_DONE);
    CHECK(named.asker == asker_name && named.answerer == answerer_name && named.number == number);
    CHECK(ginelm_session(asker, 1, &named) == GINELM_NO_TEXT);
    gather(asker, all);
    CHECK(ginelm_retry(asker, number, &outcome) == GINELM_DONE && outcome == GINELM_SENT && count_of(asker) == 1);
    for (size_t at = 0; at < all->count; at++) {
        struct letter letter = all->at[at];
        ginelm *to = letter.to == asker_name ? asker : answerer;
        CHECK(letter.to == asker_name || letter.to == answerer_name);
        CHECK(ginelm_take(to, letter.bytes, letter.length, &outcome, &named) == GINELM_DONE);
        CHECK(named.number == number);
        gather(to, all);
    }
    CHECK(outcome == GINELM_ENDED);
    CHECK(ginelm_open(asker, &open) == GINELM_DONE && open == 0);
    for (size_t at = 0; at < all->count; at++) {
        free(all->at[at].bytes);
    }
    free(all);
}

static void same_digests(ginelm *one, ginelm *other) {
    uint8_t first[32], second[32];
    size_t a = 0, b = 0;
    CHECK(ginelm_digest(one, first, sizeof(first), &a) == GINELM_DONE);
    CHECK(ginelm_digest(other, second, sizeof(second), &b) == GINELM_DONE);
    CHECK(a == b && memcmp(first, second, a) == 0);
}

/* A handle that holds nothing, and one that is made twice. */
static void handles(void) {
    ginelm here = {0};
    uint64_t number = 7;
    size_t count = 7;
    uint32_t outcome = 7;
    bool is = true;
    ginelm_named named = {7, 7, 7};
    uint8_t out[32];
    CHECK(ginelm_name(&here, &number) == GINELM_EMPTY);
    CHECK(ginelm_put(&here, T("k"), T("v"), &number) == GINELM_EMPTY);
    CHECK(ginelm_put_field(&here, T("k"), T("f"), T("v"), &number) == GINELM_EMPTY);
    CHECK(ginelm_remove(&here, T("k"), &number) == GINELM_EMPTY);
    CHECK(ginelm_remove_field(&here, T("k"), T("f"), &number) == GINELM_EMPTY);
    CHECK(ginelm_clear(&here, &number) == GINELM_EMPTY);
    CHECK(ginelm_flush(&here) == GINELM_EMPTY);
    CHECK(ginelm_flush_at_most(&here, 100) == GINELM_EMPTY);
    CHECK(ginelm_has_unsent(&here, &is) == GINELM_EMPTY);
    CHECK(ginelm_take(&here, T("x"), &outcome, &named) == GINELM_EMPTY);
    CHECK(ginelm_take_unguarded(&here, T("x"), &outcome, &named) == GINELM_EMPTY);
    CHECK(ginelm_ask(&here, 2, &number) == GINELM_EMPTY);
    CHECK(ginelm_retry(&here, 2, &outcome) == GINELM_EMPTY);
    CHECK(ginelm_abandon(&here, 2, &is) == GINELM_EMPTY);
    CHECK(ginelm_open(&here, &count) == GINELM_EMPTY);
    CHECK(ginelm_session(&here, 0, &named) == GINELM_EMPTY);
    CHECK(ginelm_get(&here, T("k")) == GINELM_EMPTY);
    CHECK(ginelm_get_field(&here, T("k"), T("f")) == GINELM_EMPTY);
    CHECK(ginelm_values_of_key(&here, T("k")) == GINELM_EMPTY);
    CHECK(ginelm_fields(&here, T("k")) == GINELM_EMPTY);
    CHECK(ginelm_keys(&here) == GINELM_EMPTY);
    CHECK(ginelm_changes(&here) == GINELM_EMPTY);
    CHECK(ginelm_contains(&here, T("k"), &is) == GINELM_EMPTY);
    CHECK(ginelm_size(&here, &number) == GINELM_EMPTY);
    CHECK(ginelm_digest(&here, out, sizeof(out), &count) == GINELM_EMPTY);
    CHECK(ginelm_knows(&here, 1, 1, &is) == GINELM_EMPTY);
    CHECK(ginelm_count(&here, &count) == GINELM_EMPTY);
    CHECK(ginelm_text(&here, 0, &number, out, sizeof(out), &count) == GINELM_EMPTY);
    CHECK(number == 7 && count == 7 && outcome == 7 && is && named.asker == 7 && here.at == NULL);
    ginelm_free(&here);
    CHECK(ginelm_new(&here, 0) == GINELM_NO_NAME && here.at == NULL);
    CHECK(ginelm_new(&here, UINT64_MAX) == GINELM_DONE);
    CHECK(ginelm_new(&here, 4) == GINELM_FULL);
    CHECK(ginelm_name(&here, &number) == GINELM_DONE && number == UINT64_MAX);
    ginelm_free(&here);
    CHECK(here.at == NULL);
    ginelm_free(&here);
}

static void words(void) {
    static const char *const WORDS[] = {"", "OutOfMemory", "TooLong", "", "NumbersSpent", "SessionsFull", "NotAMessage", "", "", "", "", "", "", "",
                                        "Empty", "Full", "NoName", "Short", "NoText", "LostMemory", ""};
    for (uint32_t answer = 0; answer < sizeof(WORDS) / sizeof(WORDS[0]); answer++) {
        uint8_t word[32];
        size_t length = 99, wanted = strlen(WORDS[answer]);
        CHECK(ginelm_word(answer, word, sizeof(word), &length) == GINELM_DONE);
        CHECK(length == wanted && memcmp(word, WORDS[answer], length) == 0);
        CHECK(ginelm_word(answer, word, 0, &length) == (wanted == 0 ? GINELM_DONE : GINELM_SHORT) && length == wanted);
    }
}

/* Writes, reads, and texts of no bytes and of too many. */
static void texts(void) {
    ginelm here = {0};
    uint64_t number = 0, size = 9;
    bool is = false;
    uint8_t *many = calloc(65536, 1);
    CHECK(ginelm_new(&here, 1) == GINELM_DONE);
    CHECK(count_of(&here) == 0);
    CHECK(ginelm_put(&here, T("b"), T("2"), &number) == GINELM_DONE && number == 1);
    CHECK(ginelm_put(&here, T("a"), T("1"), &number) == GINELM_DONE && number == 2);
    CHECK(ginelm_put_field(&here, T("a"), T("f"), T("3"), &number) == GINELM_DONE && number == 3);
    CHECK(ginelm_size(&here, &size) == GINELM_DONE && size == 2);
    CHECK(ginelm_keys(&here) == GINELM_DONE && count_of(&here) == 2);
    shows(&here, 0, "a");
    shows(&here, 1, "b");
    CHECK(ginelm_changes(&here) == GINELM_DONE && count_of(&here) == 2);
    CHECK(ginelm_changes(&here) == GINELM_DONE && count_of(&here) == 0);
    CHECK(ginelm_fields(&here, T("a")) == GINELM_DONE && count_of(&here) == 2);
    shows(&here, 0, "");
    shows(&here, 1, "f");
    CHECK(ginelm_get(&here, T("a")) == GINELM_DONE && count_of(&here) == 1);
    shows(&here, 0, "1");
    CHECK(ginelm_get_field(&here, T("a"), T("f")) == GINELM_DONE && count_of(&here) == 1);
    shows(&here, 0, "3");
    CHECK(ginelm_values_of_key(&here, T("a")) == GINELM_DONE && count_of(&here) == 2);
    shows(&here, 0, "1");
    shows(&here, 1, "3");
    CHECK(ginelm_contains(&here, T("a"), &is) == GINELM_DONE && is);
    CHECK(ginelm_contains(&here, T("c"), &is) == GINELM_DONE && !is);
    CHECK(ginelm_knows(&here, 1, 3, &is) == GINELM_DONE && is);
    CHECK(ginelm_knows(&here, 1, 4, &is) == GINELM_DONE && !is);
    CHECK(ginelm_knows(&here, 0, 1, &is) == GINELM_DONE && !is);
    CHECK(ginelm_knows(&here, 1, 0, &is) == GINELM_DONE && !is);

    /* a refused call leaves the texts, and all else */
    uint8_t before[32], after[32];
    size_t needed = 0;
    CHECK(ginelm_digest(&here, before, 31, &needed) == GINELM_SHORT && needed == 32);
    CHECK(ginelm_digest(&here, before, 32, &needed) == GINELM_DONE && needed == 32);
    number = 77;
    CHECK(ginelm_put(&here, many, 65536, T("v"), &number) == GINELM_TOO_LONG);
    CHECK(ginelm_put(&here, T("k"), many, 65536, &number) == GINELM_TOO_LONG);
    CHECK(ginelm_put_field(&here, T("k"), many, 65536, T("v"), &number) == GINELM_TOO_LONG);
    CHECK(ginelm_remove(&here, many, 65536, &number) == GINELM_TOO_LONG);
    CHECK(ginelm_remove_field(&here, T("a"), many, 65536, &number) == GINELM_TOO_LONG);
    CHECK(ginelm_get(&here, many, 65536) == GINELM_TOO_LONG);
    CHECK(ginelm_get_field(&here, T("a"), many, 65536) == GINELM_TOO_LONG);
    CHECK(ginelm_values_of_key(&here, many, 65536) == GINELM_TOO_LONG);
    CHECK(ginelm_fields(&here, many, 65536) == GINELM_TOO_LONG);
    CHECK(ginelm_contains(&here, many, 65536, &is) == GINELM_TOO_LONG);
    CHECK(number == 77 && count_of(&here) == 2);
    shows(&here, 1, "3");
    CHECK(ginelm_digest(&here, after, 32, &needed) == GINELM_DONE && memcmp(before, after, 32) == 0);

    /* the longest ones, and those of no bytes, with a null pointer too */
    CHECK(ginelm_put_field(&here, many, 65535, many, 65535, many, 65535, &number) == GINELM_DONE && number == 4);
    CHECK(ginelm_get_field(&here, many, 65535, many, 65535) == GINELM_DONE && count_of(&here) == 1);
    CHECK(ginelm_put(&here, NULL, 0, NULL, 0, &number) == GINELM_DONE && number == 5);
    CHECK(ginelm_put_field(&here, NULL, 0, NULL, 0, T("x"), &number) == GINELM_DONE && number == 6);
    CHECK(ginelm_get(&here, NULL, 0) == GINELM_DONE && count_of(&here) == 1);
    shows(&here, 0, "x");
    CHECK(ginelm_contains(&here, T(""), &is) == GINELM_DONE && is);
    CHECK(ginelm_text(&here, 0, &number, NULL, 0, &needed) == GINELM_SHORT && needed == 1);
    CHECK(ginelm_text(&here, 1, &number, after, 32, &needed) == GINELM_NO_TEXT);

    uint64_t observed = 0;
    CHECK(ginelm_remove_field(&here, T("a"), T("f"), &observed) == GINELM_DONE && observed == 1);
    CHECK(ginelm_remove(&here, T("a"), &observed) == GINELM_DONE && observed == 1);
    CHECK(ginelm_remove(&here, T("a"), &observed) == GINELM_DONE && observed == 0);
    CHECK(ginelm_clear(&here, &observed) == GINELM_DONE && observed == 3);
    CHECK(ginelm_digest(&here, NULL, 0, &needed) == GINELM_DONE && needed == 0);
    ginelm_free(&here);
    free(many);
}

/* What two wrote without knowing of each other stands at both; what is no message is refused; a ninth synchronisation is too. */
static void exchange(void) {
    ginelm one = {0}, two = {0};
    uint32_t outcome = 0;
    ginelm_named named = {7, 7, 7};
    CHECK(ginelm_new(&one, 1) == GINELM_DONE && ginelm_new(&two, 2) == GINELM_DONE);
    bool unsent = true;
    CHECK(ginelm_flush(&one) == GINELM_DONE && count_of(&one) == 0);
    CHECK(ginelm_has_unsent(&one, &unsent) == GINELM_DONE && !unsent);
    put(&one, "k", "1");
    put(&two, "k", "2");
    CHECK(ginelm_has_unsent(&one, &unsent) == GINELM_DONE && unsent);
    CHECK(ginelm_flush(&one) == GINELM_DONE && count_of(&one) == 1);
    CHECK(ginelm_has_unsent(&one, &unsent) == GINELM_DONE && !unsent);
    struct letter letter = text_at(&one, 0);
    CHECK(letter.to == 0);
    for (int twice = 0; twice < 2; twice++) {
        CHECK(ginelm_take(&two, letter.bytes, letter.length, &outcome, &named) == GINELM_DONE);
        CHECK(outcome == GINELM_JOINED && named.asker == 0 && named.answerer == 0 && named.number == 0 && count_of(&two) == 0);
    }
    CHECK(ginelm_get(&two, T("k")) == GINELM_DONE && count_of(&two) == 2);
    for (size_t length = 0; length < letter.length; length++) {
        CHECK(ginelm_take(&two, letter.bytes, length, &outcome, &named) == GINELM_NOT_A_MESSAGE);
    }
    CHECK(count_of(&two) == 2);
    free(letter.bytes);

    uint64_t number = 0;
    bool was_open = false;
    for (uint64_t opened = 1; opened <= 8; opened++) {
        CHECK(ginelm_ask(&one, 2, &number) == GINELM_DONE && number == opened);
    }
    CHECK(ginelm_ask(&one, 2, &number) == GINELM_SESSIONS_FULL && number == 8);
    CHECK(ginelm_ask(&one, 0, &number) == GINELM_NO_NAME);
    for (uint64_t opened = 1; opened <= 8; opened++) {
        CHECK(ginelm_abandon(&one, opened, &was_open) == GINELM_DONE && was_open);
        CHECK(ginelm_abandon(&one, opened, &was_open) == GINELM_DONE && !was_open);
    }
    CHECK(ginelm_retry(&one, 8, &outcome) == GINELM_DONE && outcome == GINELM_IGNORED && count_of(&one) == 0);
    for (int more = 0; more < 300; more++) {
        char key[16];
        snprintf(key, sizeof(key), "key %d", more);
        put(&two, key, "v");
    }
    synchronise(&one, 1, &two, 2);
    synchronise(&two, 2, &one, 1);
    same_digests(&one, &two);
    ginelm_free(&one);
    ginelm_free(&two);
}

/* What does not fit into a message waits: whole writes, the oldest first, and one that is too long by itself goes out alone. */
static void parts(void) {
    static char value[1001];
    ginelm from = {0}, to = {0};
    uint32_t outcome = 0;
    ginelm_named named;
    size_t longer = 0, all = 0;
    bool unsent = true;
    CHECK(ginelm_new(&from, 1) == GINELM_DONE && ginelm_new(&to, 2) == GINELM_DONE);
    memset(value, 'v', sizeof(value) - 1);
    for (int number = 0; number < 40; number++) {
        char key[16];
        snprintf(key, sizeof(key), "key %d", number);
        put(&from, key, number == 20 ? value : "a value of 24 characters");
    }
    while (ginelm_flush_at_most(&from, 300) == GINELM_DONE && count_of(&from) == 1) {
        struct letter letter = text_at(&from, 0);
        uint64_t before = 0, after = 0;
        CHECK(ginelm_size(&to, &before) == GINELM_DONE);
        CHECK(ginelm_take(&to, letter.bytes, letter.length, &outcome, &named) == GINELM_DONE && outcome == GINELM_JOINED);
        CHECK(ginelm_size(&to, &after) == GINELM_DONE && after > before);
        CHECK(letter.length <= 300 || after == before + 1);
        longer += letter.length > 300;
        all++;
        free(letter.bytes);
    }
    CHECK(longer == 1 && all >= 6 && all < 40);
    CHECK(ginelm_has_unsent(&from, &unsent) == GINELM_DONE && !unsent);
    same_digests(&from, &to);
    ginelm_free(&from);
    ginelm_free(&to);
}

/* A replica of name 7 without what it knew is told so by a message of its first life, and takes it in only where it is not to ask. */
static void forgets(struct letter message) {
    ginelm here = {0};
    uint64_t number = 0;
    uint32_t outcome = 77;
    bool is = false;
    ginelm_named named = {7, 7, 7};
    uint8_t digest[32];
    size_t needed = 9;
    CHECK(ginelm_new(&here, 7) == GINELM_DONE);
    CHECK(ginelm_get(&here, T("k")) == GINELM_DONE);
    CHECK(ginelm_has_lost(&here, message.bytes, message.length, &is) == GINELM_DONE && is);
    CHECK(ginelm_take(&here, message.bytes, message.length, &outcome, &named) == GINELM_LOST_MEMORY);
    CHECK(outcome == 77 && named.asker == 7 && count_of(&here) == 0);
    CHECK(ginelm_digest(&here, digest, sizeof(digest), &needed) == GINELM_DONE && needed == 0);
    CHECK(ginelm_take(&here, message.bytes, message.length - 1, &outcome, &named) == GINELM_NOT_A_MESSAGE);
    CHECK(ginelm_take_unguarded(&here, message.bytes, message.length - 1, &outcome, &named) == GINELM_NOT_A_MESSAGE);
    CHECK(ginelm_take_unguarded(&here, message.bytes, message.length, &outcome, &named) == GINELM_DONE && outcome == GINELM_JOINED);
    CHECK(ginelm_take(&here, message.bytes, message.length, &outcome, &named) == GINELM_DONE && outcome == GINELM_JOINED);
    CHECK(ginelm_put(&here, T("k"), T("x"), &number) == GINELM_DONE && number == 2);
    ginelm_free(&here);
}

/* A replica comes back from what was saved: under its name, or as what another name has seen. What was cut or is a message is refused. */
static void restarts(void) {
    ginelm one = {0}, back = {0}, other = {0};
    uint64_t number = 0;
    bool is = true;
    CHECK(ginelm_save(&one) == GINELM_EMPTY);
    CHECK(ginelm_new(&one, 7) == GINELM_DONE);
    put(&one, "k", "v");
    CHECK(ginelm_flush(&one) == GINELM_DONE);
    struct letter message = text_at(&one, 0);
    put(&one, "k", "w");
    CHECK(ginelm_ask(&one, 2, &number) == GINELM_DONE && number == 1);
    CHECK(ginelm_save(&one) == GINELM_DONE && count_of(&one) == 1);
    struct letter saved = text_at(&one, 0);
    CHECK(saved.to == 0);
    CHECK(ginelm_resume(&one, saved.bytes, saved.length) == GINELM_FULL);
    CHECK(ginelm_resume(&back, message.bytes, message.length) == GINELM_NOT_A_MESSAGE);
    for (size_t length = 0; length < saved.length; length++) {
        CHECK(ginelm_resume(&back, saved.bytes, length) == GINELM_NOT_A_MESSAGE && back.at == NULL);
    }
    CHECK(ginelm_take(&one, saved.bytes, saved.length, &(uint32_t){0}, &(ginelm_named){0}) == GINELM_NOT_A_MESSAGE);
    CHECK(ginelm_resume(&back, saved.bytes, saved.length) == GINELM_DONE);
    CHECK(ginelm_name(&back, &number) == GINELM_DONE && number == 7);
    same_digests(&one, &back);
    CHECK(ginelm_abandon(&back, 1, &is) == GINELM_DONE && !is);
    CHECK(ginelm_flush(&back) == GINELM_DONE && count_of(&back) == 1);
    CHECK(ginelm_put(&back, T("k"), T("x"), &number) == GINELM_DONE && number == 3);
    CHECK(ginelm_ask(&back, 2, &number) == GINELM_DONE && number == 2);
    CHECK(ginelm_has_lost(&back, message.bytes, message.length, &is) == GINELM_DONE && !is);
    CHECK(ginelm_has_lost(&back, message.bytes, 1, &is) == GINELM_NOT_A_MESSAGE);
    CHECK(ginelm_has_lost(&other, message.bytes, message.length, &is) == GINELM_EMPTY);
    CHECK(ginelm_joined_by(&back, message.bytes, message.length) == GINELM_DONE && count_of(&back) == 0);
    CHECK(ginelm_joined_by(&back, message.bytes, 1) == GINELM_NOT_A_MESSAGE);
    CHECK(ginelm_joined_by(&other, message.bytes, message.length) == GINELM_EMPTY);
    forgets(message);
    CHECK(ginelm_new_from(&other, 0, saved.bytes, saved.length) == GINELM_NO_NAME);
    CHECK(ginelm_new_from(&other, 8, saved.bytes, 3) == GINELM_NOT_A_MESSAGE);
    CHECK(ginelm_new_from(&other, 8, saved.bytes, saved.length) == GINELM_DONE);
    CHECK(ginelm_new_from(&other, 8, saved.bytes, saved.length) == GINELM_FULL);
    same_digests(&one, &other);
    CHECK(ginelm_flush(&other) == GINELM_DONE && count_of(&other) == 0);
    CHECK(ginelm_put(&other, T("k"), T("x"), &number) == GINELM_DONE && number == 1);
    ginelm_free(&one);
    ginelm_free(&back);
    ginelm_free(&other);
    free(message.bytes);
    free(saved.bytes);
}

static uint64_t state;

static uint64_t next(void) {
    state ^= state << 13;
    state ^= state >> 7;
    state ^= state << 17;
    return state;
}

/* Bytes of any kind, and messages with some of their bytes changed, cut off or put behind: taken or refused, and never more than that. */
static void random_messages(int times) {
    ginelm one = {0}, two = {0};
    uint64_t number = 0, taken = 0;
    uint32_t outcome = 0;
    ginelm_named named;
    CHECK(ginelm_new(&one, 1) == GINELM_DONE && ginelm_new(&two, 2) == GINELM_DONE);
    for (int turn = 0; turn < times; turn++) {
        uint8_t bytes[2048];
        size_t length = next() % 128;
        for (size_t at = 0; at < length; at++) {
            bytes[at] = (uint8_t)next();
        }
        if (turn % 4 != 0) {
            char key[8];
            snprintf(key, sizeof(key), "%d", (int)(next() % 20));
            if (turn % 4 == 1) {
                put(&one, key, "v");
                CHECK(ginelm_flush(&one) == GINELM_DONE);
            } else if (ginelm_ask(&one, 2, &number) == GINELM_SESSIONS_FULL) {
                bool was_open;
                CHECK(ginelm_open(&one, &length) == GINELM_DONE && ginelm_session(&one, next() % length, &named) == GINELM_DONE);
                CHECK(ginelm_abandon(&one, named.number, &was_open) == GINELM_DONE && was_open);
                CHECK(ginelm_flush(&one) == GINELM_DONE);
            }
            struct letter letter = {0, calloc(1, 1), 0};
            if (count_of(&one) > 0) {
                free(letter.bytes);
                letter = text_at(&one, 0);
            }
            CHECK(letter.length <= sizeof(bytes));
            memcpy(bytes, letter.bytes, letter.length);
            length = letter.length;
            free(letter.bytes);
            for (uint64_t changes = next() % 3; changes > 0 && length > 0; changes--) {
                bytes[next() % length] = (uint8_t)next();
            }
            length = next() % 8 == 0 && length > 0 ? next() % length : length;
        }
        ginelm *to = next() % 2 == 0 ? &one : &two;
        bool lost = false;
        uint32_t told = ginelm_has_lost(to, bytes, length, &lost);
        uint32_t answer = ginelm_take(to, bytes, length, &outcome, &named);
        CHECK(answer == (told == GINELM_DONE && lost ? (uint32_t)GINELM_LOST_MEMORY : told));
        if (answer == GINELM_LOST_MEMORY) {
            answer = ginelm_take_unguarded(to, bytes, length, &outcome, &named);
            CHECK(answer == GINELM_DONE);
        }
        CHECK(answer == GINELM_DONE || answer == GINELM_NOT_A_MESSAGE);
        CHECK(answer != GINELM_DONE || (outcome >= GINELM_JOINED && outcome <= GINELM_GONE));
        taken += answer == GINELM_DONE;
    }
    uint64_t observed;
    CHECK(ginelm_clear(&two, &observed) == GINELM_DONE);
    ginelm_free(&one);
    ginelm_free(&two);
    CHECK(taken > 0);
    printf("%d random messages, of which %llu were taken\n", times, (unsigned long long)taken);
}

/* The texts of a snapshot are these. */
static void snapshot_shows(ginelm_snapshot *here, size_t wanted, const char *const *texts) {
    size_t count = 99, needed = 99;
    CHECK(ginelm_snapshot_count(here, &count) == GINELM_DONE && count == wanted);
    for (size_t at = 0; at < count; at++) {
        uint8_t text[32];
        size_t length = strlen(texts[at]);
        CHECK(ginelm_snapshot_text(here, at, NULL, 0, &needed) == (length == 0 ? GINELM_DONE : GINELM_SHORT) && needed == length);
        CHECK(ginelm_snapshot_text(here, at, text, sizeof(text), &needed) == GINELM_DONE && needed == length);
        CHECK(memcmp(text, texts[at], length) == 0);
    }
    CHECK(ginelm_snapshot_text(here, count, NULL, 0, &needed) == GINELM_NO_TEXT);
}
#define SHOWS(here, ...) \
    snapshot_shows(here, sizeof((const char *const[]){__VA_ARGS__}) / sizeof(const char *), (const char *const[]){__VA_ARGS__})

/* The handle of a snapshot that holds none, and one that is taken twice. */
static void snapshot_handles(void) {
    ginelm replica = {0};
    ginelm_snapshot here = {0}, other = {0};
    uint64_t size = 7;
    size_t count = 7;
    bool is = true;
    uint8_t out[32];
    CHECK(ginelm_snapshot_take(&here, &replica) == GINELM_EMPTY);
    CHECK(ginelm_snapshot_get(&here, T("k")) == GINELM_EMPTY);
    CHECK(ginelm_snapshot_get_field(&here, T("k"), T("f")) == GINELM_EMPTY);
    CHECK(ginelm_snapshot_values_of_key(&here, T("k")) == GINELM_EMPTY);
    CHECK(ginelm_snapshot_fields(&here, T("k")) == GINELM_EMPTY);
    CHECK(ginelm_snapshot_keys(&here) == GINELM_EMPTY);
    CHECK(ginelm_snapshot_contains(&here, T("k"), &is) == GINELM_EMPTY);
    CHECK(ginelm_snapshot_size(&here, &size) == GINELM_EMPTY);
    CHECK(ginelm_snapshot_digest(&here, out, sizeof(out), &count) == GINELM_EMPTY);
    CHECK(ginelm_snapshot_count(&here, &count) == GINELM_EMPTY);
    CHECK(ginelm_snapshot_text(&here, 0, out, sizeof(out), &count) == GINELM_EMPTY);
    CHECK(size == 7 && count == 7 && is && here.at == NULL && replica.at == NULL);
    ginelm_snapshot_free(&here);
    CHECK(ginelm_new(&replica, 1) == GINELM_DONE);
    CHECK(ginelm_snapshot_take(&here, &replica) == GINELM_DONE);
    CHECK(ginelm_snapshot_take(&here, &replica) == GINELM_FULL);
    CHECK(ginelm_snapshot_changes(&here, &other) == GINELM_EMPTY && ginelm_snapshot_changes(&other, &here) == GINELM_EMPTY);
    ginelm_free(&replica);
    CHECK(ginelm_snapshot_take(&here, &replica) == GINELM_FULL);
    CHECK(ginelm_snapshot_count(&here, &count) == GINELM_DONE && count == 0);
    CHECK(ginelm_snapshot_size(&here, &size) == GINELM_DONE && size == 0);
    CHECK(ginelm_snapshot_digest(&here, out, 0, &count) == GINELM_DONE && count == 0);
    ginelm_snapshot_free(&here);
    CHECK(here.at == NULL);
    ginelm_snapshot_free(&here);
}

/* What a snapshot shows is what stood there, whatever is written, and once the replica is gone too. */
static void snapshots(void) {
    ginelm replica = {0};
    ginelm_snapshot before = {0}, after = {0};
    uint64_t number = 0, size = 0;
    size_t needed = 0;
    bool is = false;
    uint8_t digest[32], other[32];
    uint8_t *many = calloc(65536, 1);
    CHECK(ginelm_new(&replica, 1) == GINELM_DONE);
    put(&replica, "a", "1");
    put(&replica, "b", "2");
    CHECK(ginelm_put_field(&replica, T("a"), T("f"), T("3"), &number) == GINELM_DONE);
    CHECK(ginelm_keys(&replica) == GINELM_DONE);
    CHECK(ginelm_digest(&replica, digest, sizeof(digest), &needed) == GINELM_DONE && needed == 32);
    CHECK(ginelm_snapshot_take(&before, &replica) == GINELM_DONE && count_of(&replica) == 2);
    put(&replica, "a", "4");
    put(&replica, "c", "5");
    CHECK(ginelm_remove(&replica, T("b"), &number) == GINELM_DONE && number == 1);
    CHECK(ginelm_snapshot_take(&after, &replica) == GINELM_DONE);
    ginelm_free(&replica);

    CHECK(ginelm_snapshot_get(&before, T("a")) == GINELM_DONE);
    SHOWS(&before, "1");
    CHECK(ginelm_snapshot_get(&after, T("a")) == GINELM_DONE);
    SHOWS(&after, "4");
    CHECK(ginelm_snapshot_get_field(&before, T("a"), T("f")) == GINELM_DONE);
    SHOWS(&before, "3");
    CHECK(ginelm_snapshot_values_of_key(&before, T("a")) == GINELM_DONE);
    SHOWS(&before, "1", "3");
    CHECK(ginelm_snapshot_fields(&before, T("a")) == GINELM_DONE);
    SHOWS(&before, "", "f");
    CHECK(ginelm_snapshot_keys(&before) == GINELM_DONE);
    SHOWS(&before, "a", "b");
    CHECK(ginelm_snapshot_contains(&before, T("b"), &is) == GINELM_DONE && is);
    CHECK(ginelm_snapshot_contains(&after, T("b"), &is) == GINELM_DONE && !is);
    CHECK(ginelm_snapshot_size(&before, &size) == GINELM_DONE && size == 2);
    CHECK(ginelm_snapshot_digest(&before, other, 31, &needed) == GINELM_SHORT && needed == 32);
    CHECK(ginelm_snapshot_digest(&before, other, 32, &needed) == GINELM_DONE && memcmp(digest, other, 32) == 0);
    CHECK(ginelm_snapshot_digest(&after, other, 32, &needed) == GINELM_DONE && memcmp(digest, other, 32) != 0);
    CHECK(ginelm_snapshot_changes(&before, &after) == GINELM_DONE);
    SHOWS(&after, "a", "b", "c");
    SHOWS(&before, "a", "b");

    /* a refused call leaves the texts */
    CHECK(ginelm_snapshot_get(&before, many, 65536) == GINELM_TOO_LONG);
    CHECK(ginelm_snapshot_get_field(&before, T("a"), many, 65536) == GINELM_TOO_LONG);
    CHECK(ginelm_snapshot_get_field(&before, many, 65536, T("f")) == GINELM_TOO_LONG);
    CHECK(ginelm_snapshot_values_of_key(&before, many, 65536) == GINELM_TOO_LONG);
    CHECK(ginelm_snapshot_fields(&before, many, 65536) == GINELM_TOO_LONG);
    CHECK(ginelm_snapshot_contains(&before, many, 65536, &is) == GINELM_TOO_LONG);
    SHOWS(&before, "a", "b");
    CHECK(ginelm_snapshot_get(&before, NULL, 0) == GINELM_DONE);
    CHECK(ginelm_snapshot_count(&before, &needed) == GINELM_DONE && needed == 0);
    ginelm_snapshot_free(&before);
    CHECK(ginelm_snapshot_changes(&before, &after) == GINELM_EMPTY);
    SHOWS(&after, "a", "b", "c");
    ginelm_snapshot_free(&after);
    free(many);
}

/* A reader on a thread of its own: what it sees is the same each time. */
static void *read_on(void *given) {
    ginelm_snapshot *here = given;
    uint8_t first[32], digest[32];
    size_t needed = 0;
    CHECK(ginelm_snapshot_digest(here, first, sizeof(first), &needed) == GINELM_DONE && needed == 32);
    for (int round = 0; round < 20; round++) {
        size_t count = 0;
        CHECK(ginelm_snapshot_keys(here) == GINELM_DONE);
        CHECK(ginelm_snapshot_count(here, &count) == GINELM_DONE && count == 200);
        for (int at = 0; at < 200; at++) {
            char key[16];
            int length = snprintf(key, sizeof(key), "key %d", at);
            CHECK(ginelm_snapshot_get(here, (const uint8_t *)key, (size_t)length) == GINELM_DONE);
            SHOWS(here, "before");
        }
        CHECK(ginelm_snapshot_digest(here, digest, sizeof(digest), &needed) == GINELM_DONE && memcmp(first, digest, 32) == 0);
    }
    ginelm_snapshot_free(here);
    return NULL;
}

/* Readers of snapshots, one on each of four threads, which are let go there, while the replica writes. */
static void readers(void) {
    ginelm replica = {0};
    ginelm_snapshot held[4] = {{0}};
    pthread_t at[4];
    char key[16];
    CHECK(ginelm_new(&replica, 1) == GINELM_DONE);
    for (int it = 0; it < 200; it++) {
        snprintf(key, sizeof(key), "key %d", it);
        put(&replica, key, "before");
    }
    for (int it = 0; it < 4; it++) {
        CHECK(ginelm_snapshot_take(&held[it], &replica) == GINELM_DONE);
        CHECK(pthread_create(&at[it], NULL, read_on, &held[it]) == 0);
    }
    for (int round = 0; round < 5; round++) {
        for (int it = 0; it < 300; it++) {
            snprintf(key, sizeof(key), "key %d", it);
            put(&replica, key, "after");
        }
        CHECK(ginelm_changes(&replica) == GINELM_DONE && count_of(&replica) == 300);
    }
    for (int it = 0; it < 4; it++) {
        CHECK(pthread_join(at[it], NULL) == 0);
    }
    ginelm_free(&replica);
}

struct work {
    ginelm here;
    uint64_t name;
    int writes;
};

static void *write_some(void *given) {
    struct work *work = given;
    for (int at = 0; at < work->writes; at++) {
        char key[32];
        snprintf(key, sizeof(key), "key %d", at % 50);
        put(&work->here, key, "v");
        if (at % 10 == 0) {
            CHECK(ginelm_flush(&work->here) == GINELM_DONE && count_of(&work->here) == 1);
        }
    }
    return NULL;
}

/* A handle for each thread, and each handle at another thread in the second round. */
static void threads(int writes) {
    struct work work[4];
    pthread_t at[4];
    memset(work, 0, sizeof(work));
    for (int it = 0; it < 4; it++) {
        work[it].name = (uint64_t)it + 1;
        work[it].writes = writes;
        CHECK(ginelm_new(&work[it].here, work[it].name) == GINELM_DONE);
    }
    for (int round = 0; round < 2; round++) {
        for (int it = 0; it < 4; it++) {
            CHECK(pthread_create(&at[it], NULL, write_some, &work[(it + round) % 4]) == 0);
        }
        for (int it = 0; it < 4; it++) {
            CHECK(pthread_join(at[it], NULL) == 0);
        }
    }
    for (int round = 0; round < 2; round++) {
        for (int it = 0; it < 4; it++) {
            int other = (it + 1) % 4;
            synchronise(&work[it].here, work[it].name, &work[other].here, work[other].name);
            synchronise(&work[other].here, work[other].name, &work[it].here, work[it].name);
        }
    }
    for (int it = 0; it < 4; it++) {
        same_digests(&work[0].here, &work[it].here);
    }
    for (int it = 0; it < 4; it++) {
        ginelm_free(&work[it].here);
    }
}

int main(int count, char **arguments) {
    int times = count > 1 ? atoi(arguments[1]) : 20000;
    state = count > 2 ? strtoull(arguments[2], NULL, 10) : 88172645463325252ull;
    state = state == 0 ? 1 : state;
    printf("seed %llu\n", (unsigned long long)state);
    handles();
    words();
    texts();
    exchange();
    parts();
    restarts();
    snapshot_handles();
    snapshots();
    readers();
    random_messages(times);
    threads(times / 40);
    printf("all calls answered as they are to\n");
    return 0;
}
