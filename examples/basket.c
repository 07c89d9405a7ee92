/* Two baskets of one household, by the C library: what crates/basket does in Rattle, with the same output. */
#include <ginelm.h>
#include <stdio.h>
#include <stdlib.h>

#define T(text) (const uint8_t *)text, sizeof(text) - 1
typedef struct { uint8_t bytes[4096]; size_t length; } text;

static void must(uint32_t answer) { if (answer != GINELM_DONE) exit((int)answer); }

static void say(text it) { printf(" %.*s", (int)it.length, it.bytes); }

static text text_at(ginelm *here, size_t at) {
    text it;
    uint64_t to;
    must(ginelm_text(here, at, &to, it.bytes, sizeof(it.bytes), &it.length));
    return it;
}

/* Gives the letter that one replica has to send to another, and answers what came of it. */
static uint32_t hand_over(text letter, ginelm *to) {
    ginelm_named session;
    uint32_t outcome;
    must(ginelm_take(to, letter.bytes, letter.length, &outcome, &session));
    return outcome;
}

static void print(const char *name, ginelm *basket) {
    size_t keys, values;
    printf("%s:", name);
    must(ginelm_keys(basket) || ginelm_count(basket, &keys));
    for (size_t at = 0; at < keys; at++) {
        must(ginelm_keys(basket));
        text key = text_at(basket, at);
        say(key);
        must(ginelm_get(basket, key.bytes, key.length) || ginelm_count(basket, &values));
        for (size_t of = 0; of < values; of++) say(text_at(basket, of));
    }
    printf("\n");
}

int main(void) {
    ginelm phone = {0}, laptop = {0};
    uint64_t number, outcome;
    must(ginelm_new(&phone, 1) || ginelm_new(&laptop, 2));
    must(ginelm_put(&phone, T("apples"), T("3"), &number) || ginelm_flush(&phone)); /* the message is lost */
    must(ginelm_put(&laptop, T("apples"), T("5"), &number) || ginelm_put(&laptop, T("bread"), T("1"), &number));
    must(ginelm_put(&laptop, T("milk"), T("2"), &number) || ginelm_flush(&laptop));
    text letter = text_at(&laptop, 0);
    hand_over(letter, &phone), hand_over(letter, &phone); /* this one comes twice */
    must(ginelm_remove(&phone, T("milk"), &number));
    print("phone", &phone), print("laptop", &laptop);
    must(ginelm_ask(&laptop, 1, &number));
    do hand_over(text_at(&laptop, 0), &phone);
    while ((outcome = hand_over(text_at(&phone, 0), &laptop)) == GINELM_SENT);
    printf("synchronised: %s\n", outcome == GINELM_ENDED ? "true" : "false");
    print("phone", &phone), print("laptop", &laptop);
    ginelm_free(&phone), ginelm_free(&laptop);
}
