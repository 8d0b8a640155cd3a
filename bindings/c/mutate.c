/* Hands over reports that were changed at random, and looks whether each is answered: mutate FRAMES TIMES. The file is as frames.c reads
 * it. Under valgrind it shows that no byte beside the caller's is read or written. */
#include "yazgult.h"

#include <stdio.h>
#include <stdlib.h>
#include <string.h>

static uint64_t state = 88172645463325252u;

/* A number below a bound (xorshift). */
static uint64_t below(uint64_t bound) {
    state ^= state << 13;
    state ^= state >> 7;
    state ^= state << 17;
    return state % bound;
}

static uint64_t number(const uint8_t *bytes) {
    uint64_t n = 0;
    for (int i = 7; i >= 0; i--)
        n = n << 8 | bytes[i];
    return n;
}

/* Changes some bytes, or cuts some off, and returns how many are left. */
static size_t mutate(uint8_t *bytes, size_t length) {
    for (uint64_t i = below(4) + 1; i > 0 && length > 0; i--) {
        size_t at = below(length);
        switch (below(4)) {
        case 0:
            bytes[at] = (uint8_t)below(256);
            break;
        case 1:
            bytes[at] ^= (uint8_t)(1u << below(8));
            break;
        case 2:
            bytes[at] = (uint8_t)below(6);
            break;
        default:
            if (below(8) == 0)
                length = at;
            else
                memmove(bytes + at, bytes + at + 1, --length - at);
        }
    }
    return length;
}

int main(int count, char **words) {
    FILE *file = count == 3 ? fopen(words[1], "rb") : NULL;
    if (!file)
        return 2;
    fseek(file, 0, SEEK_END);
    size_t size = (size_t)ftell(file);
    rewind(file);
    uint8_t *frames = malloc(size ? size : 1);
    if (!frames || fread(frames, 1, size, file) != size)
        return 2;
    fclose(file);
    unsigned long kinds[4] = {0, 0, 0, 0};
    size_t at = 0;
    for (long i = atol(words[2]); i > 0; i--) {
        size_t length = number(frames + at);
        /* exactly as large as the report, so that each byte too far is seen */
        uint8_t *copy = malloc(length ? length : 1);
        memcpy(copy, frames + at + 8, length);
        size_t left = mutate(copy, length);
        uint8_t *input = malloc(left ? left : 1);
        memcpy(input, copy, left);
        size_t room = below(4096) + 1;
        uint8_t *output = malloc(room);
        size_t needed = yazgult_draw(input, left, output, room);
        if (needed == 0 || output[0] > YAZGULT_MEMORY)
            return 1;
        kinds[output[0]]++;
        free(output);
        free(input);
        free(copy);
        at += 8 + length;
        if (at >= size)
            at = 0;
    }
    free(frames);
    printf("%lu drawn, %lu refused, %lu no reports, %lu out of memory\n", kinds[0], kinds[1], kinds[2], kinds[3]);
    return kinds[3] ? 1 : 0;
}
