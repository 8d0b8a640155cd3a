/* Draws reports about one source, whose text they have or whose number among kept sources: kept LINES TIMES. On sixteen threads at once,
 * each with a list of its own that shares the source, both come to the same bytes, and so do calls that build a report; a number that there
 * isn't is told as one. With TIMES a report is drawn so often by its text or, with a third word, by its number: what that costs can be
 * counted. */
#include "yazgult_report.h"

#include <pthread.h>
#include <stdio.h>
#include <stdlib.h>
#include <string.h>

enum { THREADS = 16, ROUNDS = 50, ROOM = 4096, LINE = 20, AROUND = 400 };

static char *text;
static size_t length;

/* A report under way. */
struct bytes {
    uint8_t *at;
    size_t length;
};

static void put(struct bytes *to, const void *from, size_t size) {
    memcpy(to->at + to->length, from, size);
    to->length += size;
}

static void put_byte(struct bytes *to, uint8_t byte) {
    put(to, &byte, 1);
}

static void put_number(struct bytes *to, uint64_t number) {
    for (int i = 0; i < 8; i++)
        put_byte(to, (uint8_t)(number >> 8 * i & 255));
}

/* A report about a line of the text, under the plain sheet: by the text, where the number is SIZE_MAX, else by that number. */
static struct bytes report_of(size_t line, size_t number) {
    struct bytes to = {malloc(length + AROUND), 0};
    if (!to.at)
        exit(1);
    put_byte(&to, 3);
    put(&to, "\0\0", 2);
    put_number(&to, 140);
    put(&to, "\0\0\0\0\0", 5);
    put_number(&to, 0);
    put_number(&to, 0);
    put_byte(&to, 0);
    put_number(&to, 0); /* no later settings */
    put_number(&to, 1); /* one sheet: neither colours nor effects */
    for (int i = 0; i < 110; i++)
        put_byte(&to, 0);
    put_number(&to, 1); /* one group: an error without a title, of one element, a cause */
    put(&to, "\0\0", 2);
    put_number(&to, 1);
    put(&to, "\1\0", 2);
    put_number(&to, 1);
    put_byte(&to, number != SIZE_MAX);
    put_number(&to, number != SIZE_MAX ? number : length);
    if (number == SIZE_MAX)
        put(&to, text, length);
    put_number(&to, 1); /* one mark */
    put_number(&to, line * LINE + 4);
    put_number(&to, line * LINE + 5);
    put(&to, "\0\0\0\1\1", 5);
    return to;
}

/* Draws reports by the text and by its number, and looks whether they are the same. */
static void *compare(void *given) {
    yazgult_sources *sources = given;
    static uint8_t outputs[THREADS][2][ROOM];
    static int next;
    uint8_t(*output)[ROOM] = outputs[__atomic_fetch_add(&next, 1, __ATOMIC_SEQ_CST)];
    for (size_t i = 0; i < ROUNDS; i++) {
        struct bytes by_text = report_of(i, SIZE_MAX), by_number = report_of(i, 0);
        size_t drawn = yazgult_draw(by_text.at, by_text.length, output[0], ROOM);
        size_t again = yazgult_draw_with(by_number.at, by_number.length, sources, output[1], ROOM);
        if (drawn != again || drawn > ROOM || output[0][0] != YAZGULT_TEXTS || memcmp(output[0], output[1], drawn) != 0)
            exit(2);
        /* The same where there is no room for it at first, and then nothing is kept. */
        again = yazgult_draw_with(by_number.at, by_number.length, sources, output[1], 1);
        if (again != drawn || yazgult_sources_answer(sources, output[1], ROOM) != drawn || memcmp(output[0], output[1], drawn) != 0)
            exit(2);
        if (yazgult_sources_answer(sources, output[1], ROOM) != 0)
            exit(2);
        free(by_text.at);
        free(by_number.at);
    }
    return NULL;
}

/* A number that there isn't is no kind of source, with a list and without one. */
static void refuse(yazgult_sources *sources) {
    uint8_t output[ROOM];
    struct bytes one_more = report_of(0, 1), first = report_of(0, 0);
    yazgult_draw_with(one_more.at, one_more.length, sources, output, ROOM);
    if (output[0] != YAZGULT_NO_REPORT || output[1] != YAZGULT_KIND)
        exit(3);
    yazgult_draw(first.at, first.length, output, ROOM);
    if (output[0] != YAZGULT_NO_REPORT || output[1] != YAZGULT_KIND)
        exit(3);
    free(one_more.at);
    free(first.at);
    if (yazgult_sources_add((const uint8_t *)"a\xff", 2, sources) != 2)
        exit(3);
}

/* Calls that build a report over a kept source come to what they come to over its text; a second list and a number that there isn't are
 * told as the calls that they are of. */
static void build(yazgult_sources *sources) {
    yazgult_source by_text = yazgult_source_of(text, length, "a.c"), by_number = yazgult_source_kept(text, length, "a.c", sources, 0);
    yazgult_buffer drawn[2] = {YAZGULT_BUFFER, YAZGULT_BUFFER};
    yazgult_sources other = {NULL};
    yazgult_report *report = yazgult_report_new();
    for (int i = 0; i < 2; i++) {
        yazgult_report_clear(report);
        yazgult_report_group(report, YAZGULT_LEVEL_ERROR, "unused");
        yazgult_report_snippet_of(report, i ? &by_number : &by_text);
        yazgult_report_mark_at(report, YAZGULT_MARK_PRIMARY, YAZGULT_UNIT_CHARACTER, 7, 5, 7, 6, "here");
        yazgult_report_snippet_of(report, &by_text);
        yazgult_report_patch_at(report, YAZGULT_UNIT_BYTE, 8, 5, 8, 6, "y");
        if (yazgult_report_draw(report, NULL, YAZGULT_SHEET_PLAIN, &drawn[i]))
            exit(4);
    }
    if (drawn[0].length != drawn[1].length || memcmp(drawn[0].at, drawn[1].at, drawn[0].length) != 0)
        exit(4);
    by_number.number = 1;
    yazgult_report_snippet_of(report, &by_number);
    if (yazgult_report_draw(report, NULL, YAZGULT_SHEET_PLAIN, &drawn[0]) != 6 || yazgult_report_error(report) != YAZGULT_ERROR_KIND)
        exit(4);
    by_number.kept = &other;
    yazgult_report_snippet_of(report, &by_number);
    if (yazgult_report_draw(report, NULL, YAZGULT_SHEET_PLAIN, &drawn[0]) != 7 || yazgult_report_error(report) != YAZGULT_ERROR_ORDER)
        exit(4);
    yazgult_report_free(report);
    yazgult_buffer_free(&drawn[0]);
    yazgult_buffer_free(&drawn[1]);
}

static void in_threads(yazgult_sources *sources) {
    pthread_t threads[THREADS];
    yazgult_sources own[THREADS];
    for (int i = 0; i < THREADS; i++) {
        own[i].kept = NULL;
        if (yazgult_sources_new(&own[i]) || yazgult_sources_share(sources, &own[i]))
            exit(1);
    }
    yazgult_sources_free(sources); /* the threads share its source on */
    for (int i = 0; i < THREADS; i++)
        if (pthread_create(&threads[i], NULL, compare, &own[i]))
            exit(1);
    for (int i = 0; i < THREADS; i++) {
        pthread_join(threads[i], NULL);
        yazgult_sources_free(&own[i]);
    }
}

int main(int count, char **words) {
    size_t lines = count > 1 ? strtoul(words[1], NULL, 10) : 1000;
    yazgult_sources sources = {NULL};
    text = malloc(length = lines * LINE);
    if (!text || yazgult_sources_new(&sources))
        return 1;
    for (size_t i = 0; i < lines; i++)
        memcpy(text + i * LINE, "let x = 1; // a one\n", LINE);
    if (yazgult_sources_add((const uint8_t *)text, length, &sources))
        return 1;
    if (count > 2) {
        uint8_t output[ROOM];
        struct bytes report = report_of(lines / 2, count > 3 ? 0 : SIZE_MAX);
        for (long i = atol(words[2]); i > 0; i--)
            yazgult_draw_with(report.at, report.length, &sources, output, ROOM);
        free(report.at);
        yazgult_sources_free(&sources);
    } else {
        refuse(&sources);
        build(&sources);
        in_threads(&sources);
        printf("%d threads draw %d reports each by the number of a source of %zu lines as by its text\n", THREADS, ROUNDS, lines);
    }
    free(text);
    return 0;
}
