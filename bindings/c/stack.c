/* Says how many bytes of stack a call takes: of inputs as frames.c reads them, a line for each. With the word `json` each is a line of
 * JSON. A call is made on a thread whose stack was painted before, and what has another colour afterwards was used. */
#include "yazgult.h"

#include <pthread.h>
#include <stdio.h>
#include <stdlib.h>
#include <string.h>

enum { STACK = 4 << 20, PAINT = 0xa5 };

typedef size_t draws(const uint8_t *, size_t, uint8_t *, size_t);
struct call {
    draws *draw;
    const uint8_t *input;
    size_t length;
    uint8_t *output;
};

static void *make(void *given) {
    struct call *call = given;
    if (call->draw)
        call->draw(call->input, call->length, call->output, STACK);
    return NULL;
}

/* The bytes of stack that a thread takes which makes this call. */
static size_t used(uint8_t *stack, struct call *call) {
    pthread_attr_t attributes;
    pthread_t thread;
    size_t at = 0;
    memset(stack, PAINT, STACK);
    if (pthread_attr_init(&attributes) || pthread_attr_setstack(&attributes, stack, STACK))
        exit(1);
    if (pthread_create(&thread, &attributes, make, call) || pthread_join(thread, NULL))
        exit(1);
    pthread_attr_destroy(&attributes);
    while (at < STACK && stack[at] == PAINT)
        at++;
    return STACK - at;
}

int main(int count, char **words) {
    int is_json = count > 1 && strcmp(words[1], "json") == 0;
    uint8_t head[8], *input = malloc(STACK), *output = malloc(STACK), *stack = aligned_alloc(4096, STACK);
    if (!input || !output || !stack)
        return 1;
    struct call none = {NULL, input, 0, output};
    size_t thread = used(stack, &none);
    while (fread(head, 1, 8, stdin) == 8) {
        size_t length = 0;
        for (int i = 7; i >= 0; i--)
            length = length << 8 | head[i];
        if (length > STACK || fread(input, 1, length, stdin) != length)
            return 1;
        struct call call = {is_json ? yazgult_draw_json : yazgult_draw, input, length, output};
        printf("%zu\n", used(stack, &call) - thread);
    }
    return 0;
}
