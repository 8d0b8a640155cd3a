/* Draws diagnostic reports as compilers print them. What a report is made of is put together by the calls of yazgult_report.h.
 *
 * Each function that draws fills `output` as snprintf does: with as many bytes of its answer as there is room for, and it returns how many
 * the answer has. Where that is more than `output_length`, call it again with so much room. It writes nothing else, no end of a string
 * either. Nothing is kept between calls but lists of sources, so they may be made from any thread.
 *
 * No pointer may be null, of no bytes either, and `input` and `output` may not overlap: nothing checks that.
 * Link with libyazgult.a or libyazgult.so.
 */
#ifndef YAZGULT_H
#define YAZGULT_H

#include <stddef.h>
#include <stdint.h>

#ifdef __cplusplus
extern "C" {
#endif

/* The first byte of an answer of yazgult_draw, and what follows it. A number is 8 bytes, the little end first; a text is the number of
 * its bytes, and its bytes in UTF-8. */
enum yazgult_answer {
    /* How many texts there are, one under each sheet, and each. */
    YAZGULT_TEXTS = 0,
    /* The report is refused: a byte of yazgult_refusal, the numbers that it names, and its words. */
    YAZGULT_REFUSED = 1,
    /* The input is no report: a byte of yazgult_wrong, the number of bytes before what is wrong, and its words. */
    YAZGULT_NO_REPORT = 2,
    /* There was no memory. Nothing follows. */
    YAZGULT_MEMORY = 3
};

/* Why a report is refused, and the numbers that are named, each counted from 0. */
enum yazgult_refusal {
    YAZGULT_NO_GROUP = 0,              /* none */
    YAZGULT_NO_TITLE = 1,              /* none */
    YAZGULT_SPAN_REVERSED = 2,         /* group, element, marker */
    YAZGULT_SPAN_PAST_END = 3,         /* group, element, marker */
    YAZGULT_SPAN_OFF_BOUNDARY = 4,     /* group, element, marker */
    YAZGULT_PATCHES_OVERLAP = 5,       /* group, element, first marker, second marker */
    YAZGULT_LINE_NUMBER_TOO_LARGE = 6  /* group, element */
};

/* What is wrong with bytes that are no report. */
enum yazgult_wrong {
    YAZGULT_SHORT = 0,    /* they end before what has to stand there does */
    YAZGULT_FLAG = 1,     /* a byte that says yes or no is neither 0 nor 1 */
    YAZGULT_KIND = 2,     /* a byte names a kind that there isn't */
    YAZGULT_LONG = 3,     /* a text has 2^56 bytes or more */
    YAZGULT_NOT_TEXT = 4, /* a text isn't UTF-8 */
    YAZGULT_TRAILING = 5  /* bytes stand after the report */
};

/* Draws the report that stands in `input`, in the form of docs/BINDINGS.md. Any bytes are answered. */
size_t yazgult_draw(const uint8_t *input, size_t input_length, uint8_t *output, size_t output_length);

/* A list of sources that are kept: they have numbers in their order, from 0. What `kept` leads to is the library's. A list is used by one
 * call at a time, and may go to another thread between two; lists that share sources may be used by calls at once. Only a list that
 * yazgult_sources_new made may be given to the other calls. */
typedef struct yazgult_sources {
    void *kept;
} yazgult_sources;

/* Makes an empty list. What `sources` had isn't given back: before the first call it has NULL. Returns 0, or 1 where there was no memory,
 * and then nothing changed. */
int yazgult_sources_new(yazgult_sources *sources);

/* Copies a text, finds its lines, and keeps it as the last one of a list. Returns 0; 1 where there was no memory; 2 where the text isn't
 * UTF-8, or has 2^56 bytes or more. Then the list is as it was. */
int yazgult_sources_add(const uint8_t *text, size_t length, yazgult_sources *sources);

/* Keeps the sources of one list after those of another, too. No text is copied. Returns 0, or 1 where there was no memory, and then both
 * lists are as they were. They may not be the same. */
int yazgult_sources_share(yazgult_sources *from, yazgult_sources *into);

/* Draws as yazgult_draw does. In place of a source's text the report may have its number in this list, and is then the one with that text:
 * no line of it is looked for again. Where there isn't room for the answer, yazgult_sources_answer gives it. */
size_t yazgult_draw_with(const uint8_t *input, size_t input_length, yazgult_sources *sources, uint8_t *output, size_t output_length);

/* Gives the answer to the report that was drawn last over a list, where there wasn't room for it, and keeps it no longer. */
size_t yazgult_sources_answer(yazgult_sources *sources, uint8_t *output, size_t output_length);

/* Gives a list back: it has NULL then. */
void yazgult_sources_free(yazgult_sources *sources);

/* Draws the report that stands in `input`, a line of JSON in UTF-8 as docs/REPORTS.md has it, and gives what `replay --keep-going` answers
 * to it, in JSON without a line feed: {"id":..,"ok":[..]} with a text for each sheet, {"id":..,"refused":..,"text":..} and the numbers
 * that the refusal names, or {"error":..,"line":1} where the line is no report or there was no memory. Any bytes are answered. */
size_t yazgult_draw_json(const uint8_t *input, size_t input_length, uint8_t *output, size_t output_length);

/* The version of the library, as "1.0.0". */
size_t yazgult_version(uint8_t *output, size_t output_length);

#ifdef __cplusplus
}
#endif

#endif
