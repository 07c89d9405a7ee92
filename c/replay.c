/*
 * Tries each file that is named with the body of c/fuzz.c, once, as libFuzzer would: for a corpus, where there is no libFuzzer.
 */
#include <stdint.h>
#include <stdio.h>

int LLVMFuzzerTestOneInput(const uint8_t *data, size_t size);

int main(int count, char **names) {
    static uint8_t bytes[1 << 16];
    for (int at = 1; at < count; at++) {
        FILE *file = fopen(names[at], "rb");
        if (file == NULL) {
            perror(names[at]);
            return 2;
        }
        const size_t length = fread(bytes, 1, sizeof bytes, file);
        fclose(file);
        LLVMFuzzerTestOneInput(bytes, length);
    }
    printf("%d inputs of the corpus, no fault\n", count - 1);
    return 0;
}
