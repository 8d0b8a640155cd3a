/* Draws reports one after the other: on standard input each is the number of its bytes, 8 bytes, the little end first, and its bytes;
 * on standard output so is each answer. With the word `json` each is a line of JSON, and so is its answer; with the word `text` each is a
 * line of JSON, and its answer is what yazgult_text_json gives: a byte of yazgult_answer, and the text. */
#include "yazgult_report.h"

static uint64_t number(const uint8_t *bytes) {
    uint64_t n = 0;
    for (int i = 7; i >= 0; i--)
        n = n << 8 | bytes[i];
    return n;
}

static void *room(void *old, size_t size) {
    void *new = realloc(old, size ? size : 1);
    if (!new)
        exit(1);
    return new;
}

static size_t draw_text(const uint8_t *input, size_t length, uint8_t *output, size_t space) {
    static yazgult_buffer text = YAZGULT_BUFFER;
    enum yazgult_answer status = yazgult_text_json((const char *)input, length, &text);
    if (text.length < space) {
        output[0] = (uint8_t)status;
        memcpy(output + 1, text.at, text.length);
    }
    return text.length + 1;
}

int main(int count, char **words) {
    size_t (*draw)(const uint8_t *, size_t, uint8_t *, size_t) = yazgult_draw;
    if (count > 1 && strcmp(words[1], "json") == 0)
        draw = yazgult_draw_json;
    if (count > 1 && strcmp(words[1], "text") == 0)
        draw = draw_text;
    uint8_t head[8], *input = NULL, *output = room(NULL, 4096);
    size_t space = 4096;
    while (fread(head, 1, 8, stdin) == 8) {
        size_t length = number(head);
        input = room(input, length);
        if (fread(input, 1, length, stdin) != length)
            return 1;
        size_t needed = draw(input, length, output, space);
        if (needed > space) {
            output = room(output, space = needed);
            draw(input, length, output, space);
        }
        for (int i = 0; i < 8; i++)
            head[i] = (uint8_t)((uint64_t)needed >> (8 * i));
        fwrite(head, 1, 8, stdout);
        fwrite(output, 1, needed, stdout);
    }
    free(input);
    free(output);
    return 0;
}
