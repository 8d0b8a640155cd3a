/* A compiler in small: it reads lines as `name = 2 * (other + 1)`, works them out, and says what is wrong with them.
 *
 *     compiler [--color] FILE
 *
 * A `#` begins a comment. Reports go to standard error, with an empty line after each. Ends with status 1 where there is any. */
#include <yazgult_report.h>

enum { NAMES = 256 };

/* A part of the source, in bytes. */
struct span {
    size_t start, end;
};

/* What is worked out of a part of the source; what a wrong one would be isn't known. */
struct value {
    struct span span;
    double number;
    int is_known;
};

struct compiler {
    yazgult_source source;
    size_t at; /* the next byte to be read */
    struct span names[NAMES];
    struct value values[NAMES];
    size_t count;
    yazgult_report *report;
    enum yazgult_sheet sheet;
    int has_errors;
};

/* ---- What is wrong */

static const char *text_of(struct compiler *compiler, struct span span) {
    return yazgult_report_format(compiler->report, "%.*s", (int)(span.end - span.start), compiler->source.text + span.start);
}

/* Begins a report, with what its marks are in. */
static void begin_error(struct compiler *compiler, const char *id, const char *title) {
    yazgult_title all = {YAZGULT_LEVEL_ERROR, title, id, NULL, NULL, YAZGULT_TITLE_BY_PLACE};
    yazgult_report_group_with(compiler->report, &all);
    yazgult_report_snippet_of(compiler->report, &compiler->source);
}

static void mark(struct compiler *compiler, enum yazgult_mark_kind kind, struct span span, const char *label) {
    yazgult_report_mark(compiler->report, kind, span.start, span.end, label);
}

/* Offers a text in place of a part of the source. */
static void fix(struct compiler *compiler, const char *help, struct span span, const char *text) {
    yazgult_report_group(compiler->report, YAZGULT_LEVEL_HELP, help);
    yazgult_report_snippet_of(compiler->report, &compiler->source);
    yazgult_report_patch(compiler->report, span.start, span.end, text);
}

/* Ends a report. One that can't be drawn is no reason to hide the error. */
static void end_error(struct compiler *compiler) {
    size_t wrong = yazgult_report_print(compiler->report, NULL, compiler->sheet, stderr);
    if (wrong)
        fprintf(stderr, "an error that can't be shown (call %zu: %s)\n", wrong, yazgult_error_text(yazgult_report_error(compiler->report)));
    fputs("\n", stderr);
    yazgult_report_clear(compiler->report);
    compiler->has_errors = 1;
}

/* ---- Reading */

static int next(struct compiler *compiler) {
    while (compiler->at < compiler->source.length && strchr(" \t\r", compiler->source.text[compiler->at]))
        compiler->at++;
    return compiler->at < compiler->source.length ? (unsigned char)compiler->source.text[compiler->at] : '\n';
}

/* Takes a character, if it is the next one. */
static int take(struct compiler *compiler, int wanted) {
    int is_next = next(compiler) == wanted;
    compiler->at += is_next ? 1 : 0;
    return is_next;
}

static int is_of_name(int c) {
    return (c >= 'a' && c <= 'z') || (c >= 'A' && c <= 'Z') || (c >= '0' && c <= '9') || c == '_' || c >= 0x80;
}

/* Takes what a name or a number is made of. */
static struct span take_word(struct compiler *compiler) {
    next(compiler);
    struct span word = {compiler->at, compiler->at};
    while (word.end < compiler->source.length && is_of_name((unsigned char)compiler->source.text[word.end]))
        word.end++;
    compiler->at = word.end;
    return word;
}

static void skip_line(struct compiler *compiler) {
    while (compiler->at < compiler->source.length && compiler->source.text[compiler->at] != '\n')
        compiler->at++;
}

/* ---- Names */

static size_t shared(const char *a, const char *b, size_t length, int from_end) {
    size_t count = 0;
    while (count < length && (from_end ? a[-1 - (long)count] == b[-1 - (long)count] : a[count] == b[count]))
        count++;
    return count;
}

/* Whether one text becomes the other where a byte is put in, taken out or changed; of texts of one or two bytes too many do. */
static int is_like(const char *text, struct span a, struct span b) {
    size_t one = a.end - a.start, other = b.end - b.start, shorter = one < other ? one : other, longer = one < other ? other : one;
    size_t front = shared(text + a.start, text + b.start, shorter, 0);
    return longer > 2 && front + shared(text + a.end, text + b.end, shorter - front, 1) + 1 >= longer;
}

static int is_same(const char *text, struct span a, struct span b) {
    return a.end - a.start == b.end - b.start && memcmp(text + a.start, text + b.start, a.end - a.start) == 0;
}

/* The value that a name was given last. */
static struct value value_of(struct compiler *compiler, struct span name) {
    const char *text = compiler->source.text;
    struct value unknown = {name, 0, 0};
    for (size_t i = compiler->count; i > 0; i--) {
        if (is_same(text, name, compiler->names[i - 1])) {
            struct value found = compiler->values[i - 1];
            found.span = name;
            return found;
        }
    }
    begin_error(compiler, "E1", yazgult_report_format(compiler->report, "cannot find `%s`", text_of(compiler, name)));
    mark(compiler, YAZGULT_MARK_PRIMARY, name, "not defined above");
    for (size_t i = compiler->count; i > 0; i--) {
        if (is_like(text, name, compiler->names[i - 1])) {
            mark(compiler, YAZGULT_MARK_CONTEXT, compiler->names[i - 1], "a name like it");
            fix(compiler, "write the name that is defined", name, text_of(compiler, compiler->names[i - 1]));
            break;
        }
    }
    end_error(compiler);
    return unknown;
}

/* ---- Expressions */

static struct value sum(struct compiler *compiler);

/* What stands in parentheses. */
static struct value group(struct compiler *compiler) {
    struct span open = {compiler->at, compiler->at + 1};
    take(compiler, '(');
    struct value inner = sum(compiler);
    if (!take(compiler, ')')) {
        struct span here = {inner.span.end, inner.span.end};
        begin_error(compiler, "E3", "expected `)`");
        mark(compiler, YAZGULT_MARK_PRIMARY, here, "before the line ends");
        mark(compiler, YAZGULT_MARK_CONTEXT, open, "opened here");
        fix(compiler, "close it", here, ")");
        end_error(compiler);
        skip_line(compiler);
        inner.is_known = 0;
    }
    inner.span.start = open.start;
    inner.span.end = compiler->at;
    return inner;
}

/* A number, a name, or a sum in parentheses. */
static struct value operand(struct compiler *compiler) {
    if (next(compiler) == '(')
        return group(compiler);
    struct span word = take_word(compiler);
    struct value value = {word, 0, 1};
    if (word.start == word.end) {
        begin_error(compiler, "E4", "expected a number, a name or `(`");
        mark(compiler, YAZGULT_MARK_PRIMARY, word, NULL);
        end_error(compiler);
        skip_line(compiler);
        value.is_known = 0;
    } else if (compiler->source.text[word.start] >= '0' && compiler->source.text[word.start] <= '9') {
        value.number = strtod(compiler->source.text + word.start, NULL);
    } else {
        value = value_of(compiler, word);
    }
    return value;
}

static struct value divided(struct compiler *compiler, struct value left, struct value right) {
    struct value result = {{left.span.start, right.span.end}, 0, left.is_known && right.is_known};
    if (right.is_known && right.number == 0) {
        begin_error(compiler, "E2", "division by zero");
        mark(compiler, YAZGULT_MARK_PRIMARY, right.span, "this is 0");
        mark(compiler, YAZGULT_MARK_CONTEXT, left.span, "divided here");
        yazgult_report_message(compiler->report, YAZGULT_LEVEL_NOTE, "what has no value is looked at no further");
        end_error(compiler);
        result.is_known = 0;
    }
    result.number = result.is_known ? left.number / right.number : 0;
    return result;
}

static struct value product(struct compiler *compiler) {
    struct value left = operand(compiler);
    for (;;) {
        int is_times = take(compiler, '*');
        if (!is_times && !take(compiler, '/'))
            return left;
        struct value right = operand(compiler);
        struct value times = {{left.span.start, right.span.end}, left.number * right.number, left.is_known && right.is_known};
        left = is_times ? times : divided(compiler, left, right);
    }
}

static struct value sum(struct compiler *compiler) {
    struct value left = product(compiler);
    for (;;) {
        int is_plus = take(compiler, '+');
        if (!is_plus && !take(compiler, '-'))
            return left;
        struct value right = product(compiler);
        left.number += is_plus ? right.number : -right.number;
        left.is_known = left.is_known && right.is_known;
        left.span.end = right.span.end;
    }
}

/* A line: a name, `=` and a sum; or none of these. */
static void statement(struct compiler *compiler) {
    struct span name = take_word(compiler);
    if (name.start < name.end && compiler->count < NAMES && take(compiler, '=')) {
        struct value value = sum(compiler);
        compiler->names[compiler->count] = name;
        compiler->values[compiler->count++] = value;
    }
    if (next(compiler) != '\n' && next(compiler) != '#') {
        struct span here = {compiler->at, compiler->at};
        begin_error(compiler, "E5", "a line has one name, `=` and a sum");
        mark(compiler, YAZGULT_MARK_PRIMARY, here, "this goes on");
        end_error(compiler);
    }
    skip_line(compiler);
    compiler->at++;
}

/* ---- The program */

/* Reads a file whole, and puts a NUL after it. Answers whether it could, and there was room. */
static int read_file(const char *path, char *text, size_t room, size_t *length) {
    FILE *file = fopen(path, "rb");
    if (!file)
        return 0;
    *length = fread(text, 1, room, file);
    int is_read = !ferror(file) && *length < room;
    fclose(file);
    text[is_read ? *length : 0] = '\0';
    return is_read;
}

int main(int count, char **words) {
    static char text[1 << 20];
    static struct compiler compiler;
    size_t length = 0;
    int is_colored = count == 3 && strcmp(words[1], "--color") == 0;
    if (count != 2 + is_colored || !read_file(words[count - 1], text, sizeof text, &length)) {
        fputs("compiler [--color] FILE: there is no such file of less than 1 MiB\n", stderr);
        return 2;
    }
    compiler.source = yazgult_source_of(text, length, words[count - 1]);
    compiler.sheet = is_colored ? YAZGULT_SHEET_DEFAULT : YAZGULT_SHEET_PLAIN;
    compiler.report = yazgult_report_new();
    while (compiler.at < compiler.source.length)
        statement(&compiler);
    yazgult_report_free(compiler.report);
    return compiler.has_errors;
}
