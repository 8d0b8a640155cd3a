/* Calls of yazgult_report.h by chance, and beside each what it adds as JSON, and what it has to come to. For random.c alone. */
#ifndef RANDOM_CALLS_H
#define RANDOM_CALLS_H

#include <yazgult_report.h>

/* ---- Chance */

static uint64_t state;

/* A number below a bound (xorshift). */
static size_t below(size_t bound) {
    state ^= state << 13;
    state ^= state >> 7;
    state ^= state << 17;
    return (size_t)(state % bound);
}

static int rarely(size_t of) { return below(of) == 0; }

static const char *const texts[] = {
    "a", "", "never read", "`x` is \"0\"", "caf\xc3\xa9", "two\nlines", "\xf0\x9f\xa6\x80 crab", "a\tb", "\x1b[31mred\x1b[0m",
    "\x01\x7f\\/\b\f\r", "\xe2\x80\xaeturned", "e\xcc\x81", "\xe6\xbc\xa2\xe5\xad\x97",
    "a rather long text, which goes on and on, and is wider than narrow terminals",
};
static const char *const sources[] = {
    "let x = 1;\n", "", "\n", "a\nbb\nccc\n", "fn f() {\r\n    \xc3\xa9 = \"\xf0\x9f\xa6\x80\";\r\n}\r\n", "no line feed",
    "\tx\n\n\n\n\n\n\n\ty = \xe6\xbc\xa2\n", "a(\n  b,\n  c,\n  d,\n  e,\n  f,\n  g\n)\n",
    "x = e\xcc\x81 + \xf0\x9f\x91\xa9\xe2\x80\x8d\xf0\x9f\x9a\x80 + 1\ny\n", "\n\n\n",
};
/* One that has a text of many more bytes, where all its lines are shown. */
static char many[2 * 400 + 1];
static const char broken[] = "broken \xc3(";
#define OF(list) list[below(sizeof list / sizeof *list)]

/* ---- The same report as JSON */

static struct {
    char at[1 << 20];
    size_t length;
} json;

static void put(const char *text) {
    size_t length = strlen(text);
    if (length >= sizeof json.at - json.length)
        abort();
    memcpy(json.at + json.length, text, length + 1);
    json.length += length;
}

static void put_number(const char *name, size_t number) {
    char text[64];
    snprintf(text, sizeof text, "\"%s\":%zu", name, number);
    put(text);
}

/* A text; null for NULL. */
static void put_text(const char *name, const char *text) {
    char byte[8];
    put("\"");
    put(name);
    put(text ? "\":\"" : "\":null");
    for (; text && *text; text++) {
        int is_plain = (unsigned char)*text >= 0x20 && *text != '"' && *text != '\\';
        snprintf(byte, sizeof byte, is_plain ? "%c" : "\\u%04x", (unsigned char)*text);
        put(byte);
    }
    if (text)
        put("\"");
}

/* ---- What is wanted of the calls */

static struct {
    yazgult_report *report;
    size_t calls;              /* that were made */
    size_t wrong;              /* the number of the first wrong one, and why it is */
    enum yazgult_error error;
    size_t not_text;           /* the number of the first with a text that isn't UTF-8 */
    size_t groups, elements, markers;
    int element;               /* the last one: 0 none or no snippet, 1 a snippet without markers, 2 a cause, 3 a suggestion */
    int unit;                  /* of its places; -1: of characters, and spans in bytes */
    const char *source;
    struct {
        size_t group, element, marker;
    } added[256];
} plan;

/* Counts a call, which is wrong for this. */
static void called(enum yazgult_error error) {
    plan.calls++;
    if (error && !plan.error) {
        plan.wrong = plan.calls;
        plan.error = error;
    }
    if (!plan.error) {
        plan.added[plan.calls].group = plan.groups;
        plan.added[plan.calls].element = plan.elements;
        plan.added[plan.calls].marker = plan.markers;
    }
}

/* A text, or rarely one that isn't UTF-8, which the call that is made next will hand over. */
static const char *text_or_broken(const char *text) {
    if (!rarely(200))
        return text;
    if (!plan.not_text && !plan.error)
        plan.not_text = plan.calls + 1;
    return broken;
}

static const char *any_text(void) {
    const char *text = text_or_broken(OF(texts));
    return rarely(4) ? yazgult_report_format(plan.report, "%s", text) : text;
}

static const char *maybe_text(void) { return rarely(3) ? NULL : any_text(); }

static const char *const levels[] = {"error", "warning", "info", "note", "help"};

static void put_level(size_t level, const char *name) {
    put("\"level\":{");
    put_text("kind", levels[level]);
    if (name) {
        put(",");
        put_text("name", *name ? name : NULL);
    }
    put("}");
}

/* ---- Calls */

static void close_snippet(void) {
    if (plan.element)
        put(plan.markers ? "}]}}" : "\"annotations\":[]}}");
    plan.element = 0;
}

static void add_group(void) {
    yazgult_title title = {(enum yazgult_level)below(5), maybe_text(), NULL, NULL, NULL, (enum yazgult_title_kind)below(3)};
    if (title.text && rarely(3)) {
        title.id = maybe_text();
        title.url = maybe_text();
        title.name = maybe_text();
    } else {
        title.kind = YAZGULT_TITLE_BY_PLACE;
    }
    close_snippet();
    put(plan.groups ? "]},{" : "{");
    int is_trusted = title.kind == YAZGULT_TITLE_BY_PLACE ? plan.groups > 0 : title.kind == YAZGULT_TITLE_TRUSTED;
    if (title.text) {
        put("\"title\":{");
        put_level(title.level, title.name);
        put(",");
        put_text("text", title.text);
        put(",");
        put_text("id", title.id);
        put(",");
        put_text("url", title.url);
        put(is_trusted ? ",\"primary\":false}" : ",\"primary\":true}");
    } else {
        put("\"title\":null,");
        put_level(title.level, NULL);
    }
    put(",\"elements\":[");
    plan.groups++;
    plan.elements = plan.markers = 0;
    if (title.id || title.url || title.name || title.kind != YAZGULT_TITLE_BY_PLACE)
        yazgult_report_group_with(plan.report, &title);
    else
        yazgult_report_group(plan.report, title.level, title.text);
    called(YAZGULT_ERROR_NONE);
}

static void begin_element(const char *kind) {
    close_snippet();
    if (plan.elements++)
        put(",");
    put("{\"");
    put(kind);
    put("\":{");
    plan.markers = 0;
}

static void add_snippet(void) {
    static const char *const units[] = {"byte", "char", "utf16"};
    const char *text = text_or_broken(rarely(20) ? many : OF(sources));
    yazgult_source source = yazgult_source_of(text, strlen(text), maybe_text());
    close_snippet();
    if (!rarely(4)) {
        yazgult_report_snippet(plan.report, text, source.path);
    } else {
        source.first_line = rarely(9) ? SIZE_MAX - below(3) : below(200);
        source.unnumbered = rarely(4);
        source.unfolded = rarely(4);
        yazgult_report_snippet_of(plan.report, &source);
    }
    plan.element = 1;
    plan.source = text;
    plan.unit = (int)below(4) - 1;
    plan.elements++;
    plan.markers = 0;
    /* which kind it is of is put before it by the first marker */
    put(plan.elements > 1 ? ",{\"cause\":{" : "{\"cause\":{");
    put_text("source", text);
    put(",");
    put_text("path", source.path);
    put(",");
    put_number("line_start", source.first_line);
    put(source.unnumbered ? ",\"line_numbering\":false" : "");
    put(source.unfolded ? ",\"fold\":false" : "");
    if (plan.unit >= 0) {
        put(",");
        put_text("unit", units[plan.unit]);
    }
    put(",");
    called(YAZGULT_ERROR_NONE);
}

/* Begins a marker: the first one settles of which kind the snippet is. */
static void begin_marker(const char *list, int element) {
    if (plan.element == 1) {
        /* it began as a cause */
        if (element == 3) {
            char *at = json.at + json.length;
            while (strncmp(at, "{\"cause\":{\"source\":", 19) != 0)
                at--;
            memmove(at + 15, at + 10, json.length - (size_t)(at + 10 - json.at) + 1);
            memcpy(at, "{\"suggestion\":{", 15);
            json.length += 5;
        }
        put("\"");
        put(list);
        put("\":[{");
    } else {
        put("},{");
    }
    plan.element = element;
    plan.markers++;
}

/* A byte of the source, rarely one inside a character or past the end. */
static size_t any_byte(void) {
    size_t length = strlen(plan.source), at = below(length + 2);
    while (!rarely(40) && at < length && ((unsigned char)plan.source[at] & 0xc0) == 0x80)
        at++;
    return rarely(200) ? SIZE_MAX - below(2) : at;
}

static size_t any_line(void) {
    size_t lines = 1;
    for (const char *at = plan.source; *at; at++)
        lines += *at == '\n';
    return rarely(40) ? below(lines + 3) : rarely(200) ? SIZE_MAX : 1 + below(lines);
}

/* A column of a line, rarely one that it hasn't. */
static size_t any_column(size_t line) {
    const char *at = plan.source;
    size_t count = 0;
    for (; line > 1 && line < 100 && strchr(at, '\n'); line--)
        at = strchr(at, '\n') + 1;
    for (; *at && *at != '\n'; at++)
        count += plan.unit == YAZGULT_UNIT_BYTE || ((unsigned char)*at & 0xc0) != 0x80;
    return rarely(80) ? below(14) : rarely(200) ? SIZE_MAX - below(2) : 1 + below(count + 1);
}

/* Where a marker lies, in bytes or by lines and columns. */
struct where {
    int is_placed;
    size_t at[4];
};

static struct where any_span(void) {
    struct where where = {plan.unit > 0 || rarely(2), {0, 0, 0, 0}};
    if (where.is_placed) {
        size_t from = any_line(), to = rarely(3) ? any_line() : from, column = any_column(from), end = any_column(to);
        int is_turned = (to < from || (to == from && end < column)) && !rarely(20);
        size_t all[4] = {is_turned ? to : from, is_turned ? end : column, is_turned ? from : to, is_turned ? column : end};
        memcpy(where.at, all, sizeof all);
        char text[160];
        static const char form[] = "\"from\":{\"line\":%zu,\"column\":%zu},\"to\":{\"line\":%zu,\"column\":%zu},";
        snprintf(text, sizeof text, form, all[0], all[1], all[2], all[3]);
        put(text);
    } else {
        size_t one = any_byte(), other = any_byte();
        where.at[0] = one < other || rarely(40) ? one : other;
        where.at[1] = where.at[0] == one ? other : one;
        put_number("start", where.at[0]);
        put(",");
        put_number("end", where.at[1]);
        put(",");
    }
    return where;
}

static enum yazgult_unit unit_of_plan(void) { return plan.unit < 0 ? YAZGULT_UNIT_CHARACTER : (enum yazgult_unit)plan.unit; }

static void add_mark(void) {
    static const char *const kinds[] = {"primary", "context", "visible"};
    enum yazgult_mark_kind kind = (enum yazgult_mark_kind)below(3);
    const char *label = maybe_text();
    begin_marker("annotations", 2);
    struct where where = any_span();
    put_text("kind", kinds[kind]);
    put(",");
    put_text("label", label);
    if (where.is_placed)
        yazgult_report_mark_at(plan.report, kind, unit_of_plan(), where.at[0], where.at[1], where.at[2], where.at[3], label);
    else
        yazgult_report_mark(plan.report, kind, where.at[0], where.at[1], label);
    called(YAZGULT_ERROR_NONE);
    if (rarely(5)) {
        yazgult_report_highlight(plan.report);
        put(",\"highlight_source\":true");
        called(YAZGULT_ERROR_NONE);
    }
}

static void add_patch(void) {
    const char *text = any_text();
    begin_marker("patches", 3);
    struct where where = any_span();
    put_text("text", text);
    if (where.is_placed)
        yazgult_report_patch_at(plan.report, unit_of_plan(), where.at[0], where.at[1], where.at[2], where.at[3], text);
    else
        yazgult_report_patch(plan.report, where.at[0], where.at[1], text);
    called(YAZGULT_ERROR_NONE);
}

static void add_message(void) {
    size_t level = below(5);
    const char *name = rarely(3) ? any_text() : NULL, *text = any_text();
    begin_element("message");
    put_level(level, name);
    put(",");
    put_text("text", text);
    put("}}");
    if (name)
        yazgult_report_message_as(plan.report, (enum yazgult_level)level, name, text);
    else
        yazgult_report_message(plan.report, (enum yazgult_level)level, text);
    called(YAZGULT_ERROR_NONE);
}

static void add_origin(void) {
    const char *path = any_text();
    size_t line = below(3), column = below(3);
    begin_element("origin");
    put_text("path", path);
    if (line) {
        put(",");
        put_number("line", line);
    }
    if (column) {
        put(",");
        put_number("column", column);
    }
    put("}}");
    yazgult_report_origin(plan.report, path, line, column);
    called(YAZGULT_ERROR_NONE);
}

/* A call that may stand here. */
static void add_something(void) {
    if (!plan.groups || rarely(8)) {
        add_group();
    } else if (plan.element && !rarely(3)) {
        plan.element == 3 || (plan.element == 1 && rarely(3)) ? add_patch() : add_mark();
    } else if (!rarely(3)) {
        add_snippet();
    } else if (rarely(3)) {
        begin_element("padding");
        put("}}");
        yazgult_report_padding(plan.report);
        called(YAZGULT_ERROR_NONE);
    } else {
        rarely(2) ? add_message() : add_origin();
    }
}

/* A call that is wrong wherever it stands, or else where it stands. */
static void call_wrongly(void) {
    yazgult_report *report = plan.report;
    yazgult_source huge = yazgult_source_of("x", SIZE_MAX - below(2) * (SIZE_MAX / 3), "p");
    yazgult_source none = yazgult_source_of(NULL, below(2), "p");
    yazgult_title title = {(enum yazgult_level)(5 + below(200)), "a", NULL, NULL, NULL, YAZGULT_TITLE_BY_PLACE};
    yazgult_source far = yazgult_source_of("x", (size_t)1 << (45 + below(10)), NULL);
    int has_snippet = plan.element != 0, has_group = plan.groups != 0;
    enum yazgult_error order = YAZGULT_ERROR_ORDER, null = YAZGULT_ERROR_NULL, kind = YAZGULT_ERROR_KIND;
    switch (below(17)) {
    case 0: yazgult_report_group_with(report, NULL); called(null); break;
    case 1: yazgult_report_group_with(report, &title); called(kind); break;
    case 2: yazgult_report_group(report, (enum yazgult_level)7, NULL); called(kind); break;
    case 3: yazgult_report_snippet(report, NULL, "p"); called(null); break;
    case 4: yazgult_report_snippet_of(report, NULL); called(null); break;
    case 5: yazgult_report_snippet_of(report, &none); called(null); break;
    case 6: yazgult_report_snippet_of(report, &huge); called(has_group ? YAZGULT_ERROR_LENGTH : order); break;
    case 7: yazgult_report_snippet_of(report, &far); called(has_group ? YAZGULT_ERROR_MEMORY : order); break;
    case 8: yazgult_report_mark(report, (enum yazgult_mark_kind)(3 + below(99)), 0, 0, NULL); called(kind); break;
    case 9: yazgult_report_mark_at(report, YAZGULT_MARK_PRIMARY, (enum yazgult_unit)(3 + below(99)), 1, 1, 1, 1, NULL); called(kind); break;
    case 10: yazgult_report_patch(report, 0, 0, NULL); called(null); break;
    case 11: yazgult_report_patch_at(report, YAZGULT_UNIT_BYTE, 1, 1, 1, 1, NULL); called(has_snippet ? null : order); break;
    case 12: yazgult_report_message(report, YAZGULT_LEVEL_NOTE, NULL); called(null); break;
    case 13: yazgult_report_message(report, (enum yazgult_level)(5 + below(99)), "a"); called(kind); break;
    case 14: yazgult_report_origin(report, NULL, 1, 1); called(null); break;
    case 15: yazgult_report_format(report, NULL); called(null); plan.calls--; break;
    default:
        /* what can't stand here: a mark in a suggestion, or where there is no snippet; a patch in a cause, or .. */
        if (plan.element == 2)
            yazgult_report_patch(report, 0, 0, "a");
        else if (plan.element == 3)
            rarely(2) ? yazgult_report_highlight(report) : yazgult_report_mark(report, YAZGULT_MARK_CONTEXT, 0, 0, NULL);
        else if (plan.element == 1)
            yazgult_report_highlight(report);
        else if (rarely(2))
            yazgult_report_patch_at(report, YAZGULT_UNIT_UTF16, 1, 1, 1, 1, "a");
        else
            yazgult_report_mark(report, YAZGULT_MARK_CONTEXT, 0, 0, "a");
        called(order);
    }
}

#endif
