/* How the calls of yazgult_report.h put the bytes of a report together, which docs/BINDINGS.md describes, find places of its source, and
 * have it drawn. That header includes it, and no program needs anything of it. */
#ifndef YAZGULT_REPORT_BYTES_H
#define YAZGULT_REPORT_BYTES_H

#ifndef YAZGULT_REPORT_H
#error "include yazgult_report.h"
#endif

/* What stood in the report after a call. */
struct yazgult_step {
    size_t groups, elements, markers, end;
};

/* A text of yazgult_report_format stands after this. */
struct yazgult_formatted {
    struct yazgult_formatted *next;
};

/* The bytes are the list of groups in the form of docs/BINDINGS.md; before it YAZGULT_HEAD bytes are free for the settings and the sheet,
 * which are known when it is drawn. After each call it is a whole list. */
enum { YAZGULT_HEAD = 1 + 32 + 8 + 2 * 9 + 8 + 11 * 12 };

typedef struct yazgult_report {
    yazgult_buffer bytes, steps, lines;
    struct yazgult_formatted *formatted;
    enum yazgult_error error, drawn;
    size_t groups, elements, markers; /* how many groups, elements of the last one, and markers of that */
    size_t elements_at, markers_at;   /* where the last group's number of elements stands, and the last snippet's of markers */
    size_t kind_at;                   /* where the last snippet's kind stands; 0 where the last element is none */
    const char *kept_text; /* the last snippet's source where a list has it, else NULL */
    size_t source_at, source_length;
    yazgult_sources *kept; /* the list of kept sources that snippets are of, or NULL */
    int unnumbered, unfolded;
} yazgult_report;

/* Answers whether there is room for so many more bytes, after it made some. */
static inline int yazgult_reserve(yazgult_buffer *buffer, size_t more) {
    const size_t most = SIZE_MAX / 4;
    if (more <= buffer->room - buffer->length)
        return 1;
    if (buffer->length > most || more > most - buffer->length)
        return 0;
    size_t room = 2 * (buffer->length + more) + 256;
    char *at = (char *)realloc(buffer->at, room);
    if (!at)
        return 0;
    buffer->at = at;
    buffer->room = room;
    return 1;
}

/* Adds bytes, and answers whether there was room. */
static inline int yazgult_add(yazgult_buffer *buffer, const void *from, size_t size) {
    if (!yazgult_reserve(buffer, size))
        return 0;
    if (size)
        memcpy(buffer->at + buffer->length, from, size);
    buffer->length += size;
    return 1;
}

/* Answers whether nothing can be added: there is no report, a call was wrong, or this one is, for this error. */
static inline int yazgult_is_wrong(yazgult_report *report, int is_wrong, enum yazgult_error error) {
    if (report && !report->error && is_wrong)
        report->error = error;
    return !report || report->error;
}

static inline void yazgult_put(yazgult_report *report, const void *from, size_t size) {
    if (!report->error && !yazgult_add(&report->bytes, from, size))
        report->error = YAZGULT_ERROR_MEMORY;
}

static inline void yazgult_put_byte(yazgult_report *report, unsigned value) {
    unsigned char byte = (unsigned char)value;
    yazgult_put(report, &byte, 1);
}

static inline void yazgult_set_number(void *at, uint64_t number) {
    for (int i = 0; i < 8; i++)
        ((unsigned char *)at)[i] = (unsigned char)(number >> 8 * i & 255);
}

static inline uint64_t yazgult_number(const char *at) {
    uint64_t number = 0;
    for (int i = 7; i >= 0; i--)
        number = number << 8 | (unsigned char)at[i];
    return number;
}

static inline void yazgult_put_number(yazgult_report *report, uint64_t number) {
    unsigned char bytes[8];
    yazgult_set_number(bytes, number);
    yazgult_put(report, bytes, sizeof bytes);
}

static inline void yazgult_put_text(yazgult_report *report, const char *text, size_t length) {
    if (yazgult_is_wrong(report, (uint64_t)length >> 56 != 0, YAZGULT_ERROR_LENGTH))
        return;
    yazgult_put_number(report, length);
    yazgult_put(report, text, length);
}

static inline void yazgult_put_string(yazgult_report *report, const char *text) {
    yazgult_put_text(report, text, text ? strlen(text) : 0);
}

static inline void yazgult_put_option(yazgult_report *report, const char *text) {
    yazgult_put_byte(report, text != NULL);
    if (text)
        yazgult_put_string(report, text);
}

/* What may be missing is missing where it is 0: lines and columns are counted from 1. */
static inline void yazgult_put_place(yazgult_report *report, size_t number) {
    yazgult_put_byte(report, number != 0);
    if (number)
        yazgult_put_number(report, number);
}

static inline void yazgult_put_level(yazgult_report *report, enum yazgult_level level, const char *name) {
    yazgult_put_byte(report, !name ? 0 : !*name ? 1 : 2);
    if (name && *name)
        yazgult_put_string(report, name);
    yazgult_put_byte(report, (unsigned)level);
}

/* Begins an element of the last group: 0 a message, 1 a cause, 2 a suggestion, 3 an origin, 4 padding. */
static inline void yazgult_put_element(yazgult_report *report, unsigned kind) {
    yazgult_set_number(report->bytes.at + report->elements_at, ++report->elements);
    report->markers = report->kind_at = 0;
    yazgult_put_byte(report, kind);
}

/* Ends a call that adds something. */
static inline void yazgult_end_call(yazgult_report *report) {
    struct yazgult_step step = {report->groups, report->elements, report->markers, report->bytes.length};
    if (!report->error && !yazgult_add(&report->steps, &step, sizeof step))
        report->error = YAZGULT_ERROR_MEMORY;
}

static inline void yazgult_end_snippet(yazgult_report *report) {
    yazgult_put_byte(report, !report->unnumbered);
    yazgult_put_byte(report, !report->unfolded);
    yazgult_end_call(report);
}

/* Begins a marker of the last snippet, which becomes a cause by its first annotation, and a suggestion by its first patch. Answers whether
 * it may stand here. */
static inline int yazgult_put_marker(yazgult_report *report, char kind, size_t start, size_t end) {
    if (yazgult_is_wrong(report, !report->kind_at, YAZGULT_ERROR_ORDER))
        return 0;
    if (yazgult_is_wrong(report, report->markers && report->bytes.at[report->kind_at] != kind, YAZGULT_ERROR_ORDER))
        return 0;
    report->bytes.at[report->kind_at] = kind;
    yazgult_set_number(report->bytes.at + report->markers_at, ++report->markers);
    report->bytes.length -= 2; /* the snippet's end, which yazgult_end_snippet puts again */
    yazgult_put_number(report, start);
    yazgult_put_number(report, end);
    return 1;
}

/* Adds a source: its text, or the number of one that is kept. */
static inline void yazgult_put_source(yazgult_report *report, const yazgult_source *source) {
    yazgult_put_byte(report, source->kept != NULL);
    if (source->kept)
        yazgult_put_number(report, source->number);
    else
        yazgult_put_text(report, source->text, source->length);
    report->kept_text = source->kept ? source->text : NULL;
    report->kept = source->kept ? source->kept : report->kept;
    report->source_length = source->length;
    report->source_at = report->bytes.length - (source->kept ? 0 : source->length);
}

/* The text of the last snippet's source. */
static inline const char *yazgult_source_text(const yazgult_report *report) {
    return report->kept_text ? report->kept_text : report->bytes.at + report->source_at;
}

/* Finds where the lines of the last snippet's source start, once for all its places. */
static inline int yazgult_find_lines(yazgult_report *report) {
    const char *source = yazgult_source_text(report), *feed = source;
    if (report->lines.length)
        return 1;
    for (size_t start = 0; feed; start = feed ? (size_t)(feed - source) + 1 : start) {
        if (!yazgult_add(&report->lines, &start, sizeof start))
            return 0;
        feed = (const char *)memchr(source + start, '\n', report->source_length - start);
    }
    return 1;
}

/* The byte of the source before which so many units of a line stand; SIZE_MAX where it has fewer. Between the two units of a character it
 * is that character's second byte, so that the report is refused for it. */
static inline size_t yazgult_byte_of(const char *source, size_t at, size_t end, enum yazgult_unit unit, size_t units) {
    if (unit == YAZGULT_UNIT_BYTE)
        return units <= end - at ? at + units : SIZE_MAX;
    while (units && at < end) {
        size_t width = unit == YAZGULT_UNIT_UTF16 && (unsigned char)source[at] >= 0xf0 ? 2 : 1;
        at++;
        if (units < width)
            return at;
        units -= width;
        while (at < end && ((unsigned char)source[at] & 0xc0) == 0x80)
            at++;
    }
    return units ? SIZE_MAX : at;
}

/* The byte of a place in the last snippet's source; SIZE_MAX where there is no such place. */
static inline size_t yazgult_byte_at(const yazgult_report *report, enum yazgult_unit unit, size_t line, size_t column) {
    const size_t *starts = (const size_t *)(const void *)report->lines.at;
    size_t lines = report->lines.length / sizeof *starts;
    if (line == 0 || line > lines || column == 0)
        return SIZE_MAX;
    size_t end = line < lines ? starts[line] - 1 : report->source_length;
    return yazgult_byte_of(yazgult_source_text(report), starts[line - 1], end, unit, column - 1);
}

/* Finds the bytes of two places. Where there is no such place they are past the source's end, so that the report is refused for it. */
static inline int yazgult_find_span(yazgult_report *report, enum yazgult_unit unit, const size_t places[4], size_t span[2]) {
    if (yazgult_is_wrong(report, (unsigned)unit > YAZGULT_UNIT_UTF16, YAZGULT_ERROR_KIND))
        return 0;
    if (yazgult_is_wrong(report, !report->kind_at, YAZGULT_ERROR_ORDER))
        return 0;
    if (yazgult_is_wrong(report, !yazgult_find_lines(report), YAZGULT_ERROR_MEMORY))
        return 0;
    span[0] = yazgult_byte_at(report, unit, places[0], places[1]);
    span[1] = yazgult_byte_at(report, unit, places[2], places[3]);
    if (span[0] == SIZE_MAX || span[1] == SIZE_MAX)
        span[0] = span[1] = report->source_length + 2;
    return 1;
}

/* Writes the settings and the list of one sheet right before the groups, and answers how many bytes before them it begins. */
static inline size_t yazgult_put_head(yazgult_report *report, const yazgult_renderer *renderer, enum yazgult_sheet sheet) {
    static const signed char colors[11] = {9, 3, 12, 10, 14, 12, -1, -1, 12, 10, 9};
    static const unsigned char bold[11] = {1, 1, 1, 1, 1, 1, 1, 0, 1, 0, 0};
    unsigned char head[YAZGULT_HEAD] = {0};
    size_t length = 41;
    head[0] = 3; /* the version */
    head[1] = renderer->anonymized_origin != 0;
    head[2] = renderer->anonymized_snippet != 0;
    yazgult_set_number(head + 3, renderer->term_width ? renderer->term_width : 140);
    head[11] = renderer->unicode != 0;
    head[12] = renderer->hyperlink != 0;
    head[13] = renderer->short_message != 0;
    head[14] = renderer->no_graphics != 0;
    head[15] = renderer->show_line_feeds != 0;
    yazgult_set_number(head + 16, renderer->context_before);
    yazgult_set_number(head + 24, renderer->context_after);
    head[32] = renderer->wrap != 0;
    const int later[2] = {renderer->mask_controls, renderer->label_lines};
    yazgult_set_number(head + 33, (size_t)(later[0] != 0) + (size_t)(later[1] != 0)); /* how many later settings there are */
    for (unsigned char kind = 0; kind < 2; kind++) {
        if (later[kind]) {
            head[length++] = kind;
            yazgult_set_number(head + length, 1);
            length += 8;
        }
    }
    yazgult_set_number(head + length, 1);
    length += 8;
    for (int i = 0; i < 11; i++) {
        int is_styled = sheet == YAZGULT_SHEET_DEFAULT, has_color = is_styled && colors[i] >= 0;
        head[length++] = (unsigned char)has_color;
        if (has_color) {
            head[length++] = 0; /* one of the sixteen */
            head[length++] = (unsigned char)colors[i];
        }
        head[length + 1] = is_styled && bold[i]; /* after it that there is no background */
        length += 9;
    }
    memcpy(report->bytes.at + YAZGULT_HEAD - length, head, length);
    return length;
}

typedef size_t yazgult_export(const uint8_t *, size_t, uint8_t *, size_t);

/* Puts the whole answer of an export into a buffer, or, where there are kept sources, that of yazgult_draw_with, and a NUL after it.
 * Answers whether there was memory. */
static inline int yazgult_ask(yazgult_export *draw, yazgult_sources *kept, const char *input, size_t length, yazgult_buffer *answer) {
    size_t needed = length > SIZE_MAX / 8 ? SIZE_MAX / 8 : length + 4096;
    int is_kept = 0;
    do {
        answer->length = 0;
        if (answer->at)
            answer->at[0] = '\0';
        if (!yazgult_reserve(answer, needed))
            return 0;
        const uint8_t *from = (const uint8_t *)input;
        uint8_t *to = (uint8_t *)answer->at;
        size_t room = answer->room - 1;
        needed = 1 + (is_kept ? yazgult_sources_answer(kept, to, room)
                      : kept  ? yazgult_draw_with(from, length, kept, to, room)
                              : draw(from, length, to, room));
        is_kept = kept != NULL;
    } while (needed > answer->room);
    answer->length = needed - 1;
    answer->at[answer->length] = '\0';
    return 1;
}

/* Whether a call may have added what is wrong so: a text that isn't UTF-8, or a number that no kept source has. */
static inline int yazgult_is_of_call(const yazgult_report *report, char wrong) {
    return wrong == YAZGULT_NOT_TEXT || (wrong == YAZGULT_KIND && report->kept);
}

/* The number of the call that is made now. */
static inline size_t yazgult_this_call(const yazgult_report *report) {
    return report->steps.length / sizeof(struct yazgult_step) + 1;
}

/* The number of the call that added the byte before which there are so many; that of this call where none did. */
static inline size_t yazgult_call_of_byte(const yazgult_report *report, size_t byte) {
    const struct yazgult_step *steps = (const struct yazgult_step *)(const void *)report->steps.at;
    size_t call = 1;
    while (call < yazgult_this_call(report) && steps[call - 1].end <= byte)
        call++;
    return call;
}

/* The number of the call that added a marker, of 0 markers the element, each counted from 1; that of this call where none did. */
static inline size_t yazgult_call_of_marker(const yazgult_report *report, uint64_t group, uint64_t element, uint64_t marker) {
    const struct yazgult_step *step = (const struct yazgult_step *)(const void *)report->steps.at;
    size_t call = 1;
    while (call < yazgult_this_call(report) && !(step->groups == group && step->elements == element && step->markers == marker)) {
        call++;
        step++;
    }
    return call;
}

/* Says what a refusal is, and answers the number of the call that added what it is about. */
static inline size_t yazgult_refused(yazgult_report *report, const char *answer, size_t length) {
    unsigned refusal = (unsigned char)answer[1];
    if (refusal > YAZGULT_LINE_NUMBER_TOO_LARGE || (refusal > YAZGULT_NO_TITLE && length < 26)) {
        report->drawn = YAZGULT_ERROR_VERSION;
        return yazgult_this_call(report);
    }
    report->drawn = (enum yazgult_error)(YAZGULT_ERROR_NO_GROUP + refusal);
    if (refusal <= YAZGULT_NO_TITLE)
        return yazgult_this_call(report);
    uint64_t group = yazgult_number(answer + 2) + 1, element = yazgult_number(answer + 10) + 1;
    if (refusal == YAZGULT_LINE_NUMBER_TOO_LARGE)
        return yazgult_call_of_marker(report, group, element, 0);
    /* of two patches that overlap, the second one */
    const char *marker = answer + (refusal == YAZGULT_PATCHES_OVERLAP && length >= 34 ? 26 : 18);
    return yazgult_call_of_marker(report, group, element, yazgult_number(marker) + 1);
}

/* ---- What is answered to a line of JSON, which ends with a NUL, and is compact JSON without an escape that it doesn't need. */

/* The byte after a string, whose opening quote stands here. */
static inline const char *yazgult_after_string(const char *at) {
    for (at += *at != '\0'; *at && *at != '"';)
        at += *at == '\\' && at[1] ? 2 : 1;
    return at + (*at != '\0');
}

/* The byte after a value that is a string or a number. */
static inline const char *yazgult_after_value(const char *at) {
    return *at == '"' ? yazgult_after_string(at) : at + strcspn(at, ",}");
}

/* Writes what a string says over what was read before, and returns the byte after it. Control characters that have no letter are written as
 * \u00 and two digits, and no others are so. */
static inline const char *yazgult_take_string(const char *at, char **to) {
    static const char escapes[] = "b\bf\fn\nr\rt\t";
    const char *end = yazgult_after_string(at);
    for (at++; at + 1 < end;) {
        if (*at != '\\') {
            *(*to)++ = *at++;
        } else if (at[1] == 'u' && end - at > 6) {
            const char digits[3] = {at[4], at[5], '\0'};
            *(*to)++ = (char)strtoul(digits, NULL, 16);
            at += 6;
        } else {
            const char *escape = strchr(escapes, at[1]);
            *(*to)++ = escape ? escape[1] : at[1];
            at += 2;
        }
    }
    return end;
}

/* The same of a list of strings, with a line feed between two. */
static inline const char *yazgult_take_strings(const char *at, char **to) {
    for (at += *at != '\0'; *at == '"';) {
        at = yazgult_take_string(at, to);
        if (*at == ',') {
            *(*to)++ = '\n';
            at++;
        }
    }
    return at + (*at != '\0');
}

#endif
