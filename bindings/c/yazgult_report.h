/* Builds a report call by call, and draws it: inline functions over yazgult.h, in C99 and C++11.
 *
 *     yazgult_report *report = yazgult_report_new();
 *     yazgult_report_group(report, YAZGULT_LEVEL_ERROR, "unused variable");
 *     yazgult_report_snippet(report, source, "src/main.c");
 *     yazgult_report_mark(report, YAZGULT_MARK_PRIMARY, 4, 5, "never read");
 *     yazgult_report_print(report, NULL, YAZGULT_SHEET_PLAIN, stderr);
 *     yazgult_report_free(report);
 *
 * Texts are UTF-8, and end with a NUL where no length goes with them. Each is copied by the call that takes it, and may be freed or
 * changed after that. NULL stands for none where there may be none: a title, an id, a label, a path, a renderer.
 *
 * Nothing has to be looked at between the calls. A wrong one adds nothing, those after it do nothing, and what draws answers its number:
 * calls are counted from 1 since yazgult_report_new or yazgult_report_clear, those that return nothing, which add to the report. A call
 * is wrong where no memory is left, where a text that has to be there is NULL, where it can't stand where it does, or names a kind that
 * there isn't. Where no call was wrong, but the library refuses the report, as for a span past its source or a text that isn't UTF-8,
 * that is answered by the number of the call which added this; and what is no call's fault by the number of the one that draws.
 * yazgult_report_error says what was wrong. That as many bytes as a length says are there is the one thing that nothing checks.
 *
 * A report may be used by one thread at a time; nothing else is kept between calls.
 */
#ifndef YAZGULT_REPORT_H
#define YAZGULT_REPORT_H

#include <stdarg.h>
#include <stdio.h>
#include <stdlib.h>
#include <string.h>

#include "yazgult.h"

enum yazgult_level { YAZGULT_LEVEL_ERROR, YAZGULT_LEVEL_WARNING, YAZGULT_LEVEL_INFO, YAZGULT_LEVEL_NOTE, YAZGULT_LEVEL_HELP };

/* How a span is marked: `^^^` in the level's colour; `---`; or not at all, but its lines are shown. */
enum yazgult_mark_kind { YAZGULT_MARK_PRIMARY, YAZGULT_MARK_CONTEXT, YAZGULT_MARK_VISIBLE };

/* What columns count: bytes of UTF-8; characters (code points); or units of UTF-16, of which a character beyond U+FFFF has two. */
enum yazgult_unit { YAZGULT_UNIT_BYTE, YAZGULT_UNIT_CHARACTER, YAZGULT_UNIT_UTF16 };

/* The styles of a text: none; or colours, as escape codes of a terminal. Sheets of one's own are for yazgult_text_json. */
enum yazgult_sheet { YAZGULT_SHEET_PLAIN, YAZGULT_SHEET_DEFAULT };

/* An untrusted title is drawn in bold, and what in it could change how a terminal shows it is replaced. A trusted one is drawn as it is,
 * with escape codes that it holds. By place the first of a report is untrusted, and later ones are trusted. */
enum yazgult_title_kind { YAZGULT_TITLE_BY_PLACE, YAZGULT_TITLE_UNTRUSTED, YAZGULT_TITLE_TRUSTED };

/* What was wrong. yazgult_error_text has a text for each. */
enum yazgult_error {
    YAZGULT_ERROR_NONE = 0,
    YAZGULT_ERROR_MEMORY = 1,   /* there was none: the report may be freed, or cleared and made again */
    YAZGULT_ERROR_NULL = 2,     /* a text that has to be there, or a source, title, buffer or stream, is NULL */
    YAZGULT_ERROR_ORDER = 3,    /* an element before the first group; a mark or a patch without a snippet, or in one of the other kind; a
                                 * second list of kept sources */
    YAZGULT_ERROR_KIND = 4,     /* a level, a kind, a unit, a sheet or a kept source that there isn't */
    YAZGULT_ERROR_LENGTH = 5,   /* a text of 2^56 bytes or more; what is shorter, and too long for the memory, is YAZGULT_ERROR_MEMORY */
    YAZGULT_ERROR_FORMAT = 6,   /* vsnprintf refuses what yazgult_report_format was given */
    YAZGULT_ERROR_NOT_TEXT = 7, /* a text that isn't UTF-8 */
    YAZGULT_ERROR_WRITE = 8,    /* the stream takes no more: of the text a part may be written */
    YAZGULT_ERROR_VERSION = 9,  /* the library doesn't read what this header writes */
    /* what the library refuses: 10 and a yazgult_refusal */
    YAZGULT_ERROR_NO_GROUP = 10,
    YAZGULT_ERROR_NO_TITLE = 11,
    YAZGULT_ERROR_SPAN_REVERSED = 12,
    YAZGULT_ERROR_SPAN_PAST_END = 13,
    YAZGULT_ERROR_SPAN_OFF_BOUNDARY = 14,
    YAZGULT_ERROR_PATCHES_OVERLAP = 15,
    YAZGULT_ERROR_LINE_NUMBER_TOO_LARGE = 16
};

/* How reports are drawn. All zeros are the defaults, and so is NULL in place of a renderer. Each member that isn't said to be otherwise is
 * yes or no. docs/REPORTS.md has them under the same names. */
typedef struct yazgult_renderer {
    size_t term_width;     /* the columns of the terminal; 0: 140 */
    size_t context_before; /* how many lines before each that a span is on are shown too */
    size_t context_after;  /* how many after it */
    int unicode;           /* strokes of U+2500.. in place of ASCII */
    int wrap;              /* titles, messages and labels that are wider than the terminal are broken at blanks */
    int short_message;     /* a row for the report: path, line, column and title */
    int no_graphics;       /* no strokes and colours, for those who hear it */
    int hyperlink;         /* an id links to its address, where the sheet is one of colours */
    int show_line_feeds;   /* those of labels, paths, ids and names are drawn as U+240A */
    int mask_controls;     /* no control of a text reaches the terminal: they are drawn as signs */
    int anonymized_origin, anonymized_snippet; /* `LL` in place of the line's number after paths; in the gutter */
    int label_lines;       /* each line of a label stands in a row of its own */
} yazgult_renderer;

/* A text that grows: `length` bytes, and a NUL after them which isn't counted. It begins as YAZGULT_BUFFER, each call that fills it puts
 * something new there, and its memory goes back by yazgult_buffer_free. Where memory ran out, `length` is 0 and `at` may be NULL. */
typedef struct yazgult_buffer {
    char *at;
    size_t length, room;
} yazgult_buffer;
#define YAZGULT_BUFFER {NULL, 0, 0}

/* A source that snippets are of, as yazgult_source_of or yazgult_source_kept makes it, for any number of them. */
typedef struct yazgult_source {
    const char *text;
    size_t length;     /* in bytes, all of which are read; the text needs no NUL, and may have some inside */
    const char *path;  /* or NULL */
    size_t first_line; /* the number that the text's first line is shown with */
    int unnumbered;    /* whether the gutter has no numbers */
    int unfolded;      /* whether lines without marks are shown too */
    yazgult_sources *kept; /* the list of kept sources that has the text, or NULL; a report has texts of one list alone */
    size_t number;         /* its number there, from 0 */
} yazgult_source;

/* The title of a group, as {.text = "mismatched types", .id = "E0308"}. All zeros are an error without a title. */
typedef struct yazgult_title {
    enum yazgult_level level;
    const char *text; /* NULL: the group has no title */
    const char *id;   /* shown in brackets, as `E0308`; or NULL */
    const char *url;  /* the address that the id links to; or NULL */
    const char *name; /* shown in place of the level's, as `fatal error`; NULL: the level's; "": none */
    enum yazgult_title_kind kind;
} yazgult_title;

#include "yazgult_report_bytes.h"

/* ---- Building */

/* A report without groups; NULL where there is no memory, and a NULL report may be handed to each call: then what draws answers 1. */
static inline yazgult_report *yazgult_report_new(void) {
    yazgult_report *report = (yazgult_report *)malloc(sizeof *report);
    if (!report)
        return NULL;
    memset(report, 0, sizeof *report);
    if (!yazgult_reserve(&report->bytes, YAZGULT_HEAD + 8)) {
        free(report);
        return NULL;
    }
    memset(report->bytes.at, 0, YAZGULT_HEAD + 8);
    report->bytes.length = YAZGULT_HEAD + 8;
    return report;
}

/* Takes everything out of a report, its errors too, and keeps its memory for the next one. Calls are counted from 1 again. */
static inline void yazgult_report_clear(yazgult_report *report) {
    if (!report)
        return;
    while (report->formatted) {
        struct yazgult_formatted *next = report->formatted->next;
        free(report->formatted);
        report->formatted = next;
    }
    report->error = report->drawn = YAZGULT_ERROR_NONE;
    report->groups = report->elements = report->markers = report->kind_at = report->steps.length = report->lines.length = 0;
    report->kept = NULL;
    report->bytes.length = YAZGULT_HEAD + 8;
    yazgult_set_number(report->bytes.at + YAZGULT_HEAD, 0);
}

/* Gives back all that a report has, and it too. */
static inline void yazgult_report_free(yazgult_report *report) {
    if (!report)
        return;
    yazgult_report_clear(report);
    free(report->bytes.at);
    free(report->steps.at);
    free(report->lines.at);
    free(report);
}

/* A text as printf makes it, for the call that is made next: it is freed by yazgult_report_clear and yazgult_report_free. Where it can't be
 * made it is empty, and that next call is wrong. */
#if defined(__GNUC__)
__attribute__((format(printf, 2, 3)))
#endif
static inline const char *yazgult_report_format(yazgult_report *report, const char *format, ...) {
    va_list words, again;
    if (yazgult_is_wrong(report, !format, YAZGULT_ERROR_NULL))
        return "";
    va_start(words, format);
    va_copy(again, words);
    int length = vsnprintf(NULL, 0, format, words);
    struct yazgult_formatted *kept = NULL;
    if (length >= 0)
        kept = (struct yazgult_formatted *)malloc(sizeof *kept + (size_t)length + 1);
    if (kept) {
        vsnprintf((char *)(kept + 1), (size_t)length + 1, format, again);
        kept->next = report->formatted;
        report->formatted = kept;
    } else {
        report->error = length < 0 ? YAZGULT_ERROR_FORMAT : YAZGULT_ERROR_MEMORY;
    }
    va_end(again);
    va_end(words);
    return kept ? (const char *)(kept + 1) : "";
}

/* Begins a group: what belongs to one title. Further groups hold notes and fixes for the first. */
static inline void yazgult_report_group_with(yazgult_report *report, const yazgult_title *title) {
    if (yazgult_is_wrong(report, !title, YAZGULT_ERROR_NULL))
        return;
    int is_known = (unsigned)title->level <= YAZGULT_LEVEL_HELP && (unsigned)title->kind <= YAZGULT_TITLE_TRUSTED;
    if (yazgult_is_wrong(report, !is_known, YAZGULT_ERROR_KIND))
        return;
    int is_trusted = title->kind == YAZGULT_TITLE_BY_PLACE ? report->groups > 0 : title->kind == YAZGULT_TITLE_TRUSTED;
    yazgult_set_number(report->bytes.at + YAZGULT_HEAD, ++report->groups);
    report->elements = report->markers = report->kind_at = 0;
    yazgult_put_byte(report, (unsigned)title->level);
    yazgult_put_byte(report, title->text != NULL);
    if (title->text) {
        yazgult_put_level(report, title->level, title->name);
        yazgult_put_byte(report, title->id || title->url);
        if (title->id || title->url) {
            yazgult_put_option(report, title->id);
            yazgult_put_option(report, title->url);
        }
        yazgult_put_string(report, title->text);
        yazgult_put_byte(report, is_trusted != 0);
    }
    report->elements_at = report->bytes.length;
    yazgult_put_number(report, 0);
    yazgult_end_call(report);
}

/* The same, of a title without an id. */
static inline void yazgult_report_group(yazgult_report *report, enum yazgult_level level, const char *title) {
    yazgult_title all = {level, title, NULL, NULL, NULL, YAZGULT_TITLE_BY_PLACE};
    yazgult_report_group_with(report, &all);
}

/* A source whose first line is line 1. It has nothing of its own: the text and the path have to stay while snippets are made of it. */
static inline yazgult_source yazgult_source_of(const char *text, size_t length, const char *path) {
    yazgult_source source = {text, length, path, 1, 0, 0, NULL, 0};
    return source;
}

/* The same of a text that a list of kept sources has under this number: it isn't copied, and no line of it is looked for when the report is
 * drawn. The list has to stay until then. */
static inline yazgult_source yazgult_source_kept(const char *text, size_t length, const char *path, yazgult_sources *kept, size_t number) {
    yazgult_source source = {text, length, path, 1, 0, 0, kept, number};
    return source;
}

/* Adds a snippet to the last group: what is shown of a source, by the marks or by the patches that follow, never by both. The text has to
 * be there: NULL is no empty one. */
static inline void yazgult_report_snippet_of(yazgult_report *report, const yazgult_source *source) {
    if (yazgult_is_wrong(report, !source || !source->text, YAZGULT_ERROR_NULL))
        return;
    int is_other = source->kept && report->kept && source->kept != report->kept;
    if (yazgult_is_wrong(report, !report->groups || is_other, YAZGULT_ERROR_ORDER))
        return;
    yazgult_put_element(report, 1);
    report->kind_at = report->bytes.length - 1;
    yazgult_put_option(report, source->path);
    yazgult_put_number(report, source->first_line);
    yazgult_put_source(report, source);
    report->lines.length = 0;
    report->markers_at = report->bytes.length;
    yazgult_put_number(report, 0);
    report->unnumbered = source->unnumbered;
    report->unfolded = source->unfolded;
    yazgult_end_snippet(report);
}

/* The same of a text that ends with a NUL, and whose first line is line 1. */
static inline void yazgult_report_snippet(yazgult_report *report, const char *source, const char *path) {
    yazgult_source all = yazgult_source_of(source, source ? strlen(source) : 0, path);
    yazgult_report_snippet_of(report, &all);
}

/* Marks a span of the last snippet's source: `start` is its first byte, from 0, and `end` the one after it. An empty span is a place. */
static inline void yazgult_report_mark(yazgult_report *report, enum yazgult_mark_kind kind, size_t start, size_t end, const char *label) {
    if (yazgult_is_wrong(report, (unsigned)kind > YAZGULT_MARK_VISIBLE, YAZGULT_ERROR_KIND))
        return;
    if (!yazgult_put_marker(report, 1, start, end))
        return;
    yazgult_put_option(report, label);
    yazgult_put_byte(report, (unsigned)kind);
    yazgult_put_byte(report, 0);
    yazgult_end_snippet(report);
}

/* The same from one place to before another: a line is counted from 1 in the source's text, whatever its first line is shown with, and a
 * column from 1. The column after a line's last character is a place, too, and the line after the last line feed. Bytes cost nothing;
 * characters and units of UTF-16 cost a walk along the line. */
static inline void yazgult_report_mark_at(yazgult_report *report, enum yazgult_mark_kind kind, enum yazgult_unit unit, size_t line,
                                          size_t column, size_t end_line, size_t end_column, const char *label) {
    const size_t places[4] = {line, column, end_line, end_column};
    size_t span[2];
    if (yazgult_find_span(report, unit, places, span))
        yazgult_report_mark(report, kind, span[0], span[1], label);
}

/* Draws the source below the mark that was added last in the mark's style, too. */
static inline void yazgult_report_highlight(yazgult_report *report) {
    if (yazgult_is_wrong(report, 0, YAZGULT_ERROR_NONE))
        return;
    int is_marked = report->kind_at && report->markers && report->bytes.at[report->kind_at] == 1;
    if (yazgult_is_wrong(report, !is_marked, YAZGULT_ERROR_ORDER))
        return;
    report->bytes.at[report->bytes.length - 3] = 1;
    yazgult_end_call(report);
}

/* Offers a text in place of a span of the last snippet's source; "" takes the span away, and an empty span puts the text in. */
static inline void yazgult_report_patch(yazgult_report *report, size_t start, size_t end, const char *text) {
    if (yazgult_is_wrong(report, !text, YAZGULT_ERROR_NULL))
        return;
    if (!yazgult_put_marker(report, 2, start, end))
        return;
    yazgult_put_string(report, text);
    yazgult_end_snippet(report);
}

/* The same from one place to before another, as yazgult_report_mark_at has them. */
static inline void yazgult_report_patch_at(yazgult_report *report, enum yazgult_unit unit, size_t line, size_t column, size_t end_line,
                                           size_t end_column, const char *text) {
    const size_t places[4] = {line, column, end_line, end_column};
    size_t span[2];
    if (yazgult_find_span(report, unit, places, span))
        yazgult_report_patch(report, span[0], span[1], text);
}

/* Adds a message to the last group, as `= note: ..`. The text is trusted: it is drawn as it is, with escape codes that it holds. `name`
 * stands in place of the level's; NULL: the level's; "": none. */
static inline void yazgult_report_message_as(yazgult_report *report, enum yazgult_level level, const char *name, const char *text) {
    if (yazgult_is_wrong(report, !text, YAZGULT_ERROR_NULL))
        return;
    if (yazgult_is_wrong(report, (unsigned)level > YAZGULT_LEVEL_HELP, YAZGULT_ERROR_KIND))
        return;
    if (yazgult_is_wrong(report, !report->groups, YAZGULT_ERROR_ORDER))
        return;
    yazgult_put_element(report, 0);
    yazgult_put_level(report, level, name);
    yazgult_put_string(report, text);
    yazgult_end_call(report);
}

/* The same by the level's name. */
static inline void yazgult_report_message(yazgult_report *report, enum yazgult_level level, const char *text) {
    yazgult_report_message_as(report, level, NULL, text);
}

/* Adds a row that names a place: a path and, where they aren't 0, a line and a column in characters. */
static inline void yazgult_report_origin(yazgult_report *report, const char *path, size_t line, size_t column) {
    if (yazgult_is_wrong(report, !path, YAZGULT_ERROR_NULL))
        return;
    if (yazgult_is_wrong(report, !report->groups, YAZGULT_ERROR_ORDER))
        return;
    yazgult_put_element(report, 3);
    yazgult_put_string(report, path);
    yazgult_put_place(report, line);
    yazgult_put_place(report, column);
    yazgult_end_call(report);
}

/* Adds an empty row of the gutter. */
static inline void yazgult_report_padding(yazgult_report *report) {
    if (yazgult_is_wrong(report, 0, YAZGULT_ERROR_NONE))
        return;
    if (yazgult_is_wrong(report, !report->groups, YAZGULT_ERROR_ORDER))
        return;
    yazgult_put_element(report, 4);
    yazgult_end_call(report);
}

/* ---- Drawing */

/* Draws a report into a buffer, without a line feed at its end. Answers 0, or the number of the wrong call, and then the buffer is empty.
 * The report stays as it is: it may be drawn again, otherwise, and go on. */
static inline size_t yazgult_report_draw(yazgult_report *report, const yazgult_renderer *renderer, enum yazgult_sheet sheet, yazgult_buffer *text) {
    static const yazgult_renderer defaults = {0, 0, 0, 0, 0, 0, 0, 0, 0, 0, 0, 0, 0};
    if (text)
        text->length = 0;
    if (text && text->at)
        text->at[0] = '\0';
    if (!report)
        return 1;
    size_t wrong = yazgult_this_call(report);
    report->drawn = report->error ? report->error : !text ? YAZGULT_ERROR_NULL : YAZGULT_ERROR_NONE;
    if (!report->drawn && (unsigned)sheet > YAZGULT_SHEET_DEFAULT)
        report->drawn = YAZGULT_ERROR_KIND;
    if (report->drawn)
        return wrong;
    size_t head = yazgult_put_head(report, renderer ? renderer : &defaults, sheet);
    const char *input = report->bytes.at + YAZGULT_HEAD - head;
    if (!yazgult_ask(yazgult_draw, report->kept, input, report->bytes.length - YAZGULT_HEAD + head, text)) {
        report->drawn = YAZGULT_ERROR_MEMORY;
    } else if (text->at[0] == YAZGULT_TEXTS && text->length >= 17) {
        /* the kind, that there is one text, its length, and it */
        text->length -= 17;
        memmove(text->at, text->at + 17, text->length + 1);
        return 0;
    } else if (text->at[0] == YAZGULT_REFUSED && text->length >= 2) {
        wrong = yazgult_refused(report, text->at, text->length);
    } else if (text->at[0] == YAZGULT_NO_REPORT && text->length >= 10 && yazgult_is_of_call(report, text->at[1])) {
        report->drawn = text->at[1] == YAZGULT_KIND ? YAZGULT_ERROR_KIND : YAZGULT_ERROR_NOT_TEXT;
        wrong = yazgult_call_of_byte(report, (size_t)yazgult_number(text->at + 2) + YAZGULT_HEAD - head);
    } else {
        report->drawn = text->at[0] == YAZGULT_MEMORY ? YAZGULT_ERROR_MEMORY : YAZGULT_ERROR_VERSION;
    }
    text->length = 0;
    if (text->at)
        text->at[0] = '\0';
    return wrong;
}

/* Draws a report, and writes it to a stream with a line feed at its end. Answers as yazgult_report_draw does. */
static inline size_t yazgult_report_print(yazgult_report *report, const yazgult_renderer *renderer, enum yazgult_sheet sheet, FILE *stream) {
    yazgult_buffer text = YAZGULT_BUFFER;
    size_t wrong = yazgult_report_draw(report, renderer, sheet, &text);
    if (wrong == 0) {
        text.at[text.length++] = '\n';
        if (!stream || fwrite(text.at, 1, text.length, stream) != text.length) {
            report->drawn = stream ? YAZGULT_ERROR_WRITE : YAZGULT_ERROR_NULL;
            wrong = yazgult_this_call(report);
        }
    }
    free(text.at);
    return wrong;
}

/* What was wrong: with a call, or else when the report was drawn last. A report is NULL where there was no memory for it. */
static inline enum yazgult_error yazgult_report_error(const yazgult_report *report) {
    return !report ? YAZGULT_ERROR_MEMORY : report->error ? report->error : report->drawn;
}

/* An error in words, which stay. */
static inline const char *yazgult_error_text(enum yazgult_error error) {
    static const char *const texts[] = {
        "nothing was wrong",
        "there is no memory left",
        "what has to be there is NULL",
        "this can't be added here: an element needs a group before it, and a mark or a patch a snippet that has none of the other kind",
        "there is no kind of this number",
        "a text has 2^56 bytes or more",
        "printf can't make this text",
        "a text is not UTF-8",
        "the stream takes no more bytes",
        "the library is of another version than yazgult_report.h",
        "the short form was asked for, and the report has no group",
        "the short form was asked for, and the first group has no title",
        "a span starts after its end",
        "a span ends more than one byte after its source, or its source has no such place",
        "a span begins or ends inside a character",
        "two patches of a snippet overlap",
        "the number of a source's last line is too large",
    };
    return (unsigned)error < sizeof texts / sizeof *texts ? texts[error] : "there is no error of this number";
}

/* Gives back a buffer's memory: it is empty then, and may be filled again. */
static inline void yazgult_buffer_free(yazgult_buffer *buffer) {
    const yazgult_buffer empty = YAZGULT_BUFFER;
    if (!buffer)
        return;
    free(buffer->at);
    *buffer = empty;
}

/* ---- A line of JSON */

/* Draws the report that stands in a line of JSON, as docs/REPORTS.md has it, and puts its text itself into a buffer, without a line feed at
 * its end; where it names several sheets, the text under each, with a line feed between two. Answers YAZGULT_TEXTS; YAZGULT_REFUSED, and
 * then the buffer has the words of the refusal; YAZGULT_NO_REPORT where the line is no report, or NULL, with what is wrong with it; or
 * YAZGULT_MEMORY. */
static inline enum yazgult_answer yazgult_text_json(const char *line, size_t length, yazgult_buffer *text) {
    enum yazgult_answer status = YAZGULT_NO_REPORT;
    if (!text)
        return status;
    if (!yazgult_ask(yazgult_draw_json, NULL, line ? line : "", line ? length : 0, text))
        return YAZGULT_MEMORY;
    const char *at = text->at;
    char *to = text->at;
    while (*at == '{' || *at == ',') {
        const char *name = at + 1;
        at = yazgult_after_string(name);
        at += *at == ':';
        if (strncmp(name, "\"ok\"", 4) == 0) {
            status = YAZGULT_TEXTS;
            at = yazgult_take_strings(at, &to);
        } else if (strncmp(name, "\"text\"", 6) == 0 || strncmp(name, "\"error\"", 7) == 0) {
            at = yazgult_take_string(at, &to);
        } else {
            if (strncmp(name, "\"refused\"", 9) == 0)
                status = YAZGULT_REFUSED;
            at = yazgult_after_value(at);
        }
    }
    *to = '\0';
    text->length = (size_t)(to - text->at);
    return status == YAZGULT_NO_REPORT && strcmp(text->at, "out of memory") == 0 ? YAZGULT_MEMORY : status;
}

#endif
