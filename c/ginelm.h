/*
 * Ginelm: a map that many replicas hold, each of which writes when it likes.
 *
 * What replicas exchange may be lost, come twice and come in any order. Replicas that have seen the
 * same operations hold the same: each key then holds the values of the writes that no operation has
 * observed, which are several where replicas wrote without knowing of each other.
 *
 *     ginelm basket = {0};
 *     uint64_t number;
 *     ginelm_new(&basket, 1);
 *     ginelm_put(&basket, (const uint8_t *)"milk", 4, (const uint8_t *)"2", 1, &number);
 *     ginelm_save(&basket);               what it comes back from becomes the text at place 0
 *     ...                                 copy it out by ginelm_text, and keep it in a file
 *     ginelm_flush(&basket);              what was written becomes the text at place 0
 *     ...                                 copy it out, and send it to everyone
 *
 *     ginelm_named session;               where bytes came:
 *     uint32_t outcome;
 *     ginelm_take(&basket, bytes, length, &outcome, &session);
 *     ...                                 copy out the texts, ginelm_count of them, each with
 *                                         the replica that it is for; save, and then send them
 *     ginelm_free(&basket);
 *
 * examples/basket.c is a whole program. After c/build.sh, from the top of the repository:
 *
 *     cc -Ibuild examples/basket.c build/libginelm.a
 *
 * Handles. A `ginelm` and a `ginelm_snapshot` are set to zero before their first call, and are never
 * copied while they hold anything. One call at a time is made with a handle; between two calls it may
 * go to another thread. Calls with two handles are made at once from as many threads, also where one
 * holds a replica and the other a snapshot of it. A pointer to a handle or to a number that is told is
 * never null.
 *
 * Texts. A key, a field and a value are 0 to 65,535 bytes of any kind, as a pointer and a length. The
 * pointer may be null where the length is 0. Nothing that is passed is kept.
 *
 * Answers. Each call answers GINELM_DONE, or why it was not done; a refused call changes
 * nothing, and sets none of the numbers that it tells, but for `needed` and `to` where a call is
 * SHORT. OUT_OF_MEMORY can come of each call that allocates, which are all but those whose
 * comment says that they do not.
 *
 * What a call gives more than a number of stands behind the handle as texts, until the next call that
 * gives texts: ginelm_get, ginelm_get_field, ginelm_values_of_key, ginelm_keys, ginelm_fields,
 * ginelm_changes, ginelm_flush, ginelm_flush_at_most, ginelm_take, ginelm_take_unguarded,
 * ginelm_joined_by, ginelm_ask, ginelm_retry and ginelm_save. They are read by ginelm_count and
 * ginelm_text. Those of a snapshot stand behind its own handle, and are read by
 * ginelm_snapshot_count and ginelm_snapshot_text.
 */
#ifndef GINELM_H
#define GINELM_H

#include <stdbool.h>
#include <stddef.h>
#include <stdint.h>

#ifdef __cplusplus
extern "C" {
#endif

typedef struct {
    void *at; /* null where it holds nothing */
} ginelm;

/* What a replica held at one moment, which stays so whatever the replica does from then on. */
typedef struct {
    void *at; /* null where it holds nothing */
} ginelm_snapshot;

/* A synchronisation: its number, from 1, at the replica that asks. Three times 0 for none. */
typedef struct {
    uint64_t asker;    /* the name of the replica that asks */
    uint64_t answerer; /* the name of the replica that answers */
    uint64_t number;
} ginelm_named;

/* Why a call was not done. */
enum {
    GINELM_DONE = 0,
    GINELM_OUT_OF_MEMORY = 1, /* no memory was found */
    GINELM_TOO_LONG = 2,      /* a key, a field or a value has more than 65,535 bytes */
    GINELM_NUMBERS_SPENT = 4, /* the replica made 2^64 - 1 writes or synchronisations */
    GINELM_SESSIONS_FULL = 5, /* eight own synchronisations are open */
    GINELM_NOT_A_MESSAGE = 6, /* the bytes spell no message */
    GINELM_EMPTY = 14,        /* the handle holds nothing */
    GINELM_FULL = 15,         /* the handle holds something already */
    GINELM_NO_NAME = 16,      /* a name is 0 */
    GINELM_SHORT = 17,        /* the room is too short for the text */
    GINELM_NO_TEXT = 18,      /* nothing stands at that place */
    GINELM_LOST_MEMORY = 19   /* the message knows a write of the replica's name that the replica does not know */
};

/* What came of a message. */
enum {
    GINELM_JOINED = 1,   /* it was a delta, and is joined in */
    GINELM_SENT = 2,     /* it was taken; the texts are to be sent */
    GINELM_ENDED = 3,    /* a synchronisation ended: all that its peer had seen is joined in */
    GINELM_IGNORED = 4,  /* nothing was waiting for it */
    GINELM_MISMATCH = 5, /* it does not fit what was promised */
    GINELM_GONE = 6      /* a synchronisation ended with nothing, as its peer keeps it no longer: ask anew */
};

/* ---- a replica is made and let go ---- */

/* Makes the replica of this name, from 1 on, which no other replica has or ever had. FULL, NO_NAME. */
uint32_t ginelm_new(ginelm *here, uint64_t name);

/* Lets the replica go, if there is one: the handle is empty then. */
void ginelm_free(ginelm *here);

/* Tells the replica's name. Allocates nothing. */
uint32_t ginelm_name(ginelm *here, uint64_t *name);

/* ---- it comes back after a restart ---- */

/* What the replica is to come back from becomes the one text: all that it holds, what it is to
 * send, its name and the number of its last own synchronisation. It is to be kept, as in a file,
 * before anything is sent that was made, or asked for, later. */
uint32_t ginelm_save(ginelm *here);

/* Makes the replica that comes back from what was saved; no other one uses its name from then
 * on. Its own synchronisations are not open any more. FULL, NOT_A_MESSAGE where the bytes are
 * not what was saved. */
uint32_t ginelm_resume(ginelm *here, const uint8_t *bytes, size_t length);

/* Makes a replica of a name that was never used, which has seen what the saved one had seen: for
 * who cannot save before anything is sent. FULL, NO_NAME, NOT_A_MESSAGE. */
uint32_t ginelm_new_from(ginelm *here, uint64_t name, const uint8_t *bytes, size_t length);

/* ---- it writes. Each is TOO_LONG where a text is ---- */

/* Writes the value on the key, at its empty field, in the place of all values there that it has
 * seen. Tells the number of the write. NUMBERS_SPENT. */
uint32_t ginelm_put(ginelm *here, const uint8_t *key, size_t key_length, const uint8_t *value, size_t value_length,
                    uint64_t *number);

/* Writes the value on a field of the key, whose other fields stay. NUMBERS_SPENT. */
uint32_t ginelm_put_field(ginelm *here, const uint8_t *key, size_t key_length, const uint8_t *field,
                          size_t field_length, const uint8_t *value, size_t value_length, uint64_t *number);

/* Takes away what it has seen at the key, with all its fields. Tells how many writes that were. */
uint32_t ginelm_remove(ginelm *here, const uint8_t *key, size_t key_length, uint64_t *observed);

/* Takes away what it has seen at the field of the key. */
uint32_t ginelm_remove_field(ginelm *here, const uint8_t *key, size_t key_length, const uint8_t *field,
                             size_t field_length, uint64_t *observed);

/* Takes away all that it has seen. Goes through the whole map. */
uint32_t ginelm_clear(ginelm *here, uint64_t *observed);

/* ---- replicas exchange messages. However these travel, they may be lost, come twice and in any order ---- */

/* What it wrote since the last flush becomes the one text, for everyone; no text where it wrote nothing. */
uint32_t ginelm_flush(ginelm *here);

/* What it wrote first since the last flush becomes the one text, of at most so many bytes, for
 * everyone; no text where it wrote nothing. What does not fit waits for the next call or flush, whole
 * writes at a time: one write whose text is longer by itself goes out alone. */
uint32_t ginelm_flush_at_most(ginelm *here, uint64_t most);

/* Tells whether something waits to be sent: whether a flush gives a text. Allocates nothing. */
uint32_t ginelm_has_unsent(ginelm *here, bool *unsent);

/* Takes in any message of any replica. Tells what came of it (GINELM_JOINED to GINELM_GONE), and
 * the synchronisation that it named. The texts are what is to be sent for it, each to the replica
 * that ginelm_text tells. NOT_A_MESSAGE.
 *
 * LOST_MEMORY just where ginelm_has_lost tells true of the message, whatever else would come of
 * it: two replicas use the name, or it was used before and what was known is lost. This one is
 * to write nothing more, and its host makes one of a new name. */
uint32_t ginelm_take(ginelm *here, const uint8_t *bytes, size_t length, uint32_t *outcome, ginelm_named *session);

/* The same for messages that may be forged: it is never LOST_MEMORY. By a forged one a replica
 * learns of a write of its name that it never made, and its next write has the number behind
 * that one. */
uint32_t ginelm_take_unguarded(ginelm *here, const uint8_t *bytes, size_t length, uint32_t *outcome, ginelm_named *session);

/* Tells whether the message knows a write of this replica's name that the replica does not know. NOT_A_MESSAGE. */
uint32_t ginelm_has_lost(ginelm *here, const uint8_t *bytes, size_t length, bool *lost);

/* What the message will join in, where it is taken and ends an own synchronisation, becomes the one
 * text, as a message of ginelm_flush: whoever keeps it keeps what the synchronisation brought. No
 * text where it will end none, where more is new than keys are held, or where a dot stands at several
 * keys, as after forged messages: then all that is held is to be kept. The replica stays as it is.
 * NOT_A_MESSAGE. */
uint32_t ginelm_joined_by(ginelm *here, const uint8_t *bytes, size_t length);

/* Opens a synchronisation, which brings all that the peer has seen. Tells its number; the one
 * text is to be sent to the peer. NO_NAME, SESSIONS_FULL, NUMBERS_SPENT. */
uint32_t ginelm_ask(ginelm *here, uint64_t peer, uint64_t *number);

/* What is to be sent again for this own synchronisation, where messages may have been lost,
 * becomes the texts. The outcome is GINELM_SENT, or GINELM_IGNORED where it is not open. */
uint32_t ginelm_retry(ginelm *here, uint64_t number, uint32_t *outcome);

/* Gives this own synchronisation up, and tells whether it was open. Allocates nothing. */
uint32_t ginelm_abandon(ginelm *here, uint64_t number, bool *was_open);

/* Tells how many own synchronisations are open, at most eight. */
uint32_t ginelm_open(ginelm *here, size_t *open);

/* Tells the own synchronisation at this place, from 0, among those that are open, by number. NO_TEXT. */
uint32_t ginelm_session(ginelm *here, size_t at, ginelm_named *session);

/* ---- what it shows. Each is TOO_LONG where a text is ---- */

/* The values of the key at its empty field become the texts, ascending by bytes, each once. */
uint32_t ginelm_get(ginelm *here, const uint8_t *key, size_t key_length);

/* The values of the field of the key become the texts. */
uint32_t ginelm_get_field(ginelm *here, const uint8_t *key, size_t key_length, const uint8_t *field,
                          size_t field_length);

/* The values of the key over all its fields become the texts. */
uint32_t ginelm_values_of_key(ginelm *here, const uint8_t *key, size_t key_length);

/* The fields of the key that hold a value become the texts. */
uint32_t ginelm_fields(ginelm *here, const uint8_t *key, size_t key_length);

/* The keys that hold a value at some field become the texts. Goes through the whole map. */
uint32_t ginelm_keys(ginelm *here);

/* The keys at which the map changed since this was last asked become the texts, ascending by
 * bytes: those that came or went, and those under which other values stand. At first these are
 * all keys. It takes time in what changed, and not in the map; from the first call on a write
 * copies what it shares with the map that was told. */
uint32_t ginelm_changes(ginelm *here);

/* Tells whether the key holds a value at some field. */
uint32_t ginelm_contains(ginelm *here, const uint8_t *key, size_t key_length, bool *is_there);

/* Tells how many keys hold a value at some field. Allocates nothing. */
uint32_t ginelm_size(ginelm *here, uint64_t *size);

/* Copies the root digest: 32 bytes, or none where there is no key. Replicas that hold the same
 * have the same. SHORT. Allocates nothing. */
uint32_t ginelm_digest(ginelm *here, uint8_t *out, size_t room, size_t *needed);

/* Tells whether it has seen the write of this number of the replica of this name. Allocates nothing. */
uint32_t ginelm_knows(ginelm *here, uint64_t name, uint64_t number, bool *is_known);

/* ---- what it held at one moment, for readers on other threads while it goes on. Each is TOO_LONG where a text is ---- */

/* Takes a snapshot of the replica into a handle that holds none. It takes constant time where
 * nothing was written since the last snapshot or synchronisation, and else time in the nodes of
 * the map that were written; it copies no key and no value. From then on a write copies what it
 * shares with the snapshot. FULL where the snapshot's handle holds one, EMPTY where the
 * replica's holds none. */
uint32_t ginelm_snapshot_take(ginelm_snapshot *here, ginelm *replica);

/* Lets the snapshot go, if there is one: the handle is empty then. The replica need not be there any more. */
void ginelm_snapshot_free(ginelm_snapshot *here);

/* The same reads as those of a replica, by what it held then. */
uint32_t ginelm_snapshot_get(ginelm_snapshot *here, const uint8_t *key, size_t key_length);

uint32_t ginelm_snapshot_get_field(ginelm_snapshot *here, const uint8_t *key, size_t key_length, const uint8_t *field,
                                   size_t field_length);

uint32_t ginelm_snapshot_values_of_key(ginelm_snapshot *here, const uint8_t *key, size_t key_length);

uint32_t ginelm_snapshot_fields(ginelm_snapshot *here, const uint8_t *key, size_t key_length);

uint32_t ginelm_snapshot_keys(ginelm_snapshot *here);

uint32_t ginelm_snapshot_contains(ginelm_snapshot *here, const uint8_t *key, size_t key_length, bool *is_there);

/* Allocates nothing. */
uint32_t ginelm_snapshot_size(ginelm_snapshot *here, uint64_t *size);

/* The root digest that the replica had then. SHORT. Allocates nothing. */
uint32_t ginelm_snapshot_digest(ginelm_snapshot *here, uint8_t *out, size_t room, size_t *needed);

/* The keys at which the two snapshots differ become the texts of the newer one, ascending by
 * bytes: those that one of them alone has, and those under which other values stand. It takes
 * time in what differs, and not in the map. The two are not one handle, and may be of two
 * replicas. EMPTY where either handle is. */
uint32_t ginelm_snapshot_changes(ginelm_snapshot *older, ginelm_snapshot *newer);

/* Tells how many texts the snapshot's last call gave. Allocates nothing. */
uint32_t ginelm_snapshot_count(ginelm_snapshot *here, size_t *count);

/* Copies the text at this place, from 0, as ginelm_text does: SHORT, NO_TEXT. Allocates nothing. */
uint32_t ginelm_snapshot_text(ginelm_snapshot *here, size_t at, uint8_t *out, size_t room, size_t *needed);

/* ---- the texts. These allocate nothing ---- */

/* Tells how many texts there are. */
uint32_t ginelm_count(ginelm *here, size_t *count);

/* Copies the text at this place, from 0, and tells how many bytes it has, and the name of the
 * replica that it is for, or 0 for everyone. SHORT where there is too little room: nothing is
 * copied then, and `needed` tells how many bytes it has. NO_TEXT. */
uint32_t ginelm_text(ginelm *here, size_t at, uint64_t *to, uint8_t *out, size_t room, size_t *needed);

/* Copies the word of an answer, as `NotAMessage`: no bytes where no call gives this answer. SHORT. */
uint32_t ginelm_word(uint32_t answer, uint8_t *out, size_t room, size_t *needed);

#ifdef __cplusplus
}
#endif

#endif
