/* Makes random calls of yazgult_report.h, and beside them the same report as a line of JSON: random COUNT [SEED]. Each report has to come
 * to what the line comes to, or, where calls are wrong, to the first of these; and once more with ever more requests for memory granted.
 * Link with -Wl,--wrap=malloc,--wrap=realloc. Under a sanitizer it shows that no byte beside what is there is touched, and that all memory
 * goes back. */
#include "random_calls.h"

/* ---- Memory that runs out */

void *__real_malloc(size_t size);
void *__real_realloc(void *old, size_t size);
void *__wrap_malloc(size_t size);
void *__wrap_realloc(void *old, size_t size);

enum { AMPLE = -1 };
/* How many requests are granted before the first that isn't; and whether one wasn't. */
static long granted = AMPLE;
static int was_refused;

/* No machine has as much as is asked for where a length is absurd. */
static int is_granted(size_t size) {
    if (granted == 0)
        was_refused = 1;
    if (granted <= 0)
        return granted == AMPLE && size < (size_t)1 << 40;
    granted--;
    return size < (size_t)1 << 40;
}

void *__wrap_malloc(size_t size) { return is_granted(size) ? __real_malloc(size) : NULL; }
void *__wrap_realloc(void *old, size_t size) { return is_granted(size) ? __real_realloc(old, size) : NULL; }

/* ---- Reports */

static struct {
    yazgult_renderer renderer;
    enum yazgult_sheet sheet;
} how;

/* Settings, by chance, and the beginning of the line of JSON. */
static void choose(void) {
    static const size_t widths[] = {0, 0, 0, 140, 80, 40, 20, 1, SIZE_MAX};
    yazgult_renderer *it = &how.renderer;
    int *const flags[] = {&it->unicode, &it->wrap, &it->short_message, &it->no_graphics, &it->hyperlink, &it->show_line_feeds,
                          &it->anonymized_origin, &it->anonymized_snippet, &it->mask_controls, &it->label_lines};
    static const char *const names[] = {"unicode", "wrap", "short_message", "no_graphics", "hyperlink", "show_line_feeds", "anonymized_origin",
                                        "anonymized_snippet", "mask_controls", "label_lines"};
    json.length = 0;
    how.sheet = rarely(2) ? YAZGULT_SHEET_PLAIN : YAZGULT_SHEET_DEFAULT;
    it->term_width = OF(widths);
    it->context_before = rarely(4) ? below(3) : 0;
    it->context_after = rarely(4) ? below(3) : 0;
    put("{\"id\":\"\\\"ok\\\":[\",\"settings\":{");
    for (int i = 0; i < 9; i++) {
        *flags[i] = rarely(6);
        if (*flags[i]) {
            put("\"");
            put(names[i]);
            put("\":true,");
        }
    }
    if (it->term_width) {
        put_number("term_width", it->term_width);
        put(",");
    }
    put_number("context_before", it->context_before);
    put(",");
    put_number("context_after", it->context_after);
    put(how.sheet == YAZGULT_SHEET_DEFAULT ? "},\"sheets\":[\"default\"],\"groups\":[" : "},\"sheets\":[\"plain\"],\"groups\":[");
}

/* Makes a report by chance; the same seed makes the same one, and none but NULL has no memory left for it. */
static void make(uint64_t seed, yazgult_report *report) {
    yazgult_buffer unread = YAZGULT_BUFFER;
    state = seed;
    memset(&plan, 0, sizeof plan);
    plan.report = report;
    choose();
    size_t calls = below(24);
    int is_wrong = rarely(3);
    while (plan.calls < calls) {
        if (is_wrong && rarely(12))
            call_wrongly();
        else
            add_something();
        /* what is drawn early is no part of the report */
        if (rarely(30))
            yazgult_report_draw(plan.report, NULL, how.sheet, &unread);
    }
    close_snippet();
    put(plan.groups ? "]}]}" : "]}");
    yazgult_buffer_free(&unread);
}

/* The number of the call that a refusal is about, by its words, and which refusal it is. */
static size_t call_of(const char *words, enum yazgult_error *error) {
    static const char *const ends[] = {"span is reversed", "span ends past the source", "span is off a character border", " overlap",
                                       "line numbers are too large"};
    size_t group = 0, element = 0, marker = 0, first;
    size_t call = plan.calls + 1;
    *error = strstr(words, "needs a title") ? YAZGULT_ERROR_NO_TITLE : YAZGULT_ERROR_NO_GROUP;
    for (int i = 0; i < 5; i++) {
        if (!strstr(words, ends[i]))
            continue;
        *error = (enum yazgult_error)(YAZGULT_ERROR_SPAN_REVERSED + i);
        if (sscanf(words, "group %zu, element %zu, marker %zu:", &group, &element, &marker) != 3 &&
            sscanf(words, "group %zu, element %zu: markers %zu and %zu", &group, &element, &first, &marker) != 4)
            marker = SIZE_MAX;
        for (call = 1; call <= plan.calls; call++)
            if (plan.added[call].group == group + 1 && plan.added[call].element == element + 1 && plan.added[call].marker == marker + 1)
                break;
    }
    return call;
}

static unsigned long counts[4];

static int told(uint64_t seed, const char *what, const char *got, const char *wanted) {
    fprintf(stderr, "seed %llu: %s: got %s, wanted %s\nof %s\n", (unsigned long long)seed, what, got, wanted, json.at);
    return 1;
}

/* Compares what a report came to with what the line of JSON does, or with the first wrong call. */
static int compare(uint64_t seed, size_t wrong, const yazgult_buffer *text) {
    static yazgult_buffer wanted = YAZGULT_BUFFER;
    enum yazgult_error error = plan.error, got = yazgult_report_error(plan.report);
    size_t call = plan.wrong;
    if (!error && plan.not_text) {
        error = YAZGULT_ERROR_NOT_TEXT;
        call = plan.not_text;
    } else if (!error) {
        enum yazgult_answer status = yazgult_text_json(json.at, json.length, &wanted);
        if (status != YAZGULT_TEXTS && status != YAZGULT_REFUSED)
            return told(seed, "the line", wanted.at, "a case");
        if (status == YAZGULT_REFUSED)
            call = call_of(wanted.at, &error);
    }
    if (got != error)
        return told(seed, "error", yazgult_error_text(got), yazgult_error_text(error));
    if (wrong != call) {
        fprintf(stderr, "seed %llu: call %zu, wanted %zu: %s\nof %s\n", (unsigned long long)seed, wrong, call, yazgult_error_text(got), json.at);
        return 1;
    }
    if (!error && (text->length != wanted.length || memcmp(text->at, wanted.at, wanted.length) != 0))
        return told(seed, "text", text->at, wanted.at);
    if (error && text->length != 0)
        return told(seed, "text", text->at, "none");
    counts[!error ? 0 : plan.error ? 2 : 1]++;
    return 0;
}

/* Makes and draws the report again, while so many requests for memory are granted; answers whether it is well. */
static int is_well_without(uint64_t seed, long requests, const yazgult_buffer *text, enum yazgult_error error) {
    yazgult_buffer again = YAZGULT_BUFFER;
    was_refused = 0;
    granted = requests;
    yazgult_report *report = yazgult_report_new();
    make(seed, report);
    size_t wrong = yazgult_report_draw(report, &how.renderer, how.sheet, &again);
    enum yazgult_error got = yazgult_report_error(report);
    granted = AMPLE;
    int is_well = wrong == 0 ? again.length == text->length && (again.length == 0 || memcmp(again.at, text->at, text->length) == 0)
                             : (got == YAZGULT_ERROR_MEMORY || got == error) && wrong <= plan.calls + 1 && again.length == 0;
    yazgult_report_free(report);
    yazgult_buffer_free(&again);
    counts[3] += got == YAZGULT_ERROR_MEMORY;
    return is_well;
}

/* The same of the line of JSON. */
static int is_json_well_without(long requests, enum yazgult_answer status, const yazgult_buffer *text) {
    yazgult_buffer again = YAZGULT_BUFFER;
    was_refused = 0;
    granted = requests;
    enum yazgult_answer got = yazgult_text_json(json.at, json.length, &again);
    granted = AMPLE;
    int is_same = got == status && again.length == text->length && memcmp(again.at, text->at, text->length) == 0;
    int is_well = is_same || (got == YAZGULT_MEMORY && (again.length == 0 || strcmp(again.at, "out of memory") == 0));
    yazgult_buffer_free(&again);
    return is_well;
}

int main(int count, char **words) {
    unsigned long reports = count > 1 ? strtoul(words[1], NULL, 10) : 1000;
    uint64_t seed = count > 2 ? strtoull(words[2], NULL, 10) : 88172645463325252u;
    yazgult_report *report = yazgult_report_new();
    yazgult_buffer text = YAZGULT_BUFFER;
    for (size_t at = 0; at < sizeof many - 1; at++)
        many[at] = at % 2 ? '\n' : 'x';
    for (unsigned long i = 0; i < reports; i++, seed += 0x9e3779b97f4a7c15u) {
        yazgult_report_clear(report);
        if (i % 7 == 0)
            yazgult_buffer_free(&text);
        make(seed, report);
        size_t wrong = yazgult_report_draw(report, &how.renderer, how.sheet, &text);
        if (compare(seed, wrong, &text) != 0)
            return 1;
        enum yazgult_error error = yazgult_report_error(report);
        was_refused = i % 10 == 0;
        for (long requests = 0; was_refused; requests++) {
            if (!is_well_without(seed, requests, &text, error))
                return told(seed, "with few requests for memory", "another answer", "the text, or that there is no memory");
        }
        was_refused = i % 100 == 0;
        enum yazgult_answer status = yazgult_text_json(json.at, json.length, &text);
        for (long requests = 0; was_refused; requests++) {
            if (!is_json_well_without(requests, status, &text))
                return told(seed, "with few requests for memory", "another answer to the line", "the same, or that there is no memory");
        }
    }
    yazgult_report_free(report);
    yazgult_buffer_free(&text);
    printf("%lu drawn, %lu refused, %lu with a wrong call; %lu times out of memory\n", counts[0], counts[1], counts[2], counts[3]);
    return counts[0] && counts[1] && counts[2] && counts[3] ? 0 : 1;
}
