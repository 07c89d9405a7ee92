#include "heap.h"

#include <malloc.h>

void *__real_malloc(size_t size);
void *__real_calloc(size_t count, size_t size);
void *__real_realloc(void *old, size_t size);
void __real_free(void *old);
void *__wrap_malloc(size_t size);
void *__wrap_calloc(size_t count, size_t size);
void *__wrap_realloc(void *old, size_t size);
void __wrap_free(void *old);

static size_t requests, refused_from, taken, most, begun;
static bool has_refused;

static bool is_refused(void) {
    requests++;
    if (refused_from == 0 || requests < refused_from) {
        return false;
    }
    has_refused = true;
    return true;
}

static void *counted(void *block) {
    if (block != NULL) {
        taken += malloc_usable_size(block);
        most = taken > most ? taken : most;
    }
    return block;
}

void *__wrap_malloc(size_t size) { return is_refused() ? NULL : counted(__real_malloc(size)); }

void *__wrap_calloc(size_t count, size_t size) { return is_refused() ? NULL : counted(__real_calloc(count, size)); }

void *__wrap_realloc(void *old, size_t size) {
    if (is_refused()) {
        return NULL;
    }
    size_t was = old == NULL ? 0 : malloc_usable_size(old);
    void *block = __real_realloc(old, size);
    if (block != NULL) {
        taken -= was;
    }
    return counted(block);
}

void __wrap_free(void *old) {
    if (old != NULL) {
        taken -= malloc_usable_size(old);
    }
    __real_free(old);
}

void heap_refuse_from(size_t number) {
    requests = 0;
    refused_from = number;
    has_refused = false;
}

size_t heap_requests(void) { return requests; }

bool heap_has_refused(void) { return has_refused; }

void heap_measure(void) {
    begun = taken;
    most = taken;
}

size_t heap_most(void) { return most - begun; }
