/* Draws three errors with labels and fixes: cc example.c $(pkg-config --cflags --libs yazgult) */
#include <yazgult_report.h>
static const char source[] = "fn main() {\n    let x: i32 = \"one\";\n    prnt(x);\n    if x = 1 {}\n}\n";

static void error(yazgult_report *report, const char *title, size_t start, size_t end, const char *label) {
    yazgult_report_clear(report);
    yazgult_report_group(report, YAZGULT_LEVEL_ERROR, title);
    yazgult_report_snippet(report, source, "src/main.rs");
    yazgult_report_mark(report, YAZGULT_MARK_PRIMARY, start, end, label);
}

static void fix(yazgult_report *report, const char *help, size_t start, size_t end, const char *text) {
    yazgult_report_group(report, YAZGULT_LEVEL_HELP, help);
    yazgult_report_snippet(report, source, "src/main.rs");
    yazgult_report_patch(report, start, end, text);
    size_t wrong = yazgult_report_print(report, NULL, YAZGULT_SHEET_PLAIN, stdout);
    puts(wrong ? yazgult_error_text(yazgult_report_error(report)) : "");
}

int main(void) {
    yazgult_report *report = yazgult_report_new();
    error(report, "mismatched types", 29, 34, "expected `i32`, found `&str`");
    yazgult_report_mark(report, YAZGULT_MARK_CONTEXT, 23, 26, "expected due to this");
    fix(report, "write a number", 29, 34, "1");
    error(report, "cannot find `prnt`", 40, 44, "not defined");
    fix(report, "there is a name like it", 40, 44, "print");
    error(report, "expected a condition", 56, 61, "this assigns, and has no value");
    fix(report, "to compare, write `==`", 58, 59, "==");
    yazgult_report_free(report);
}
