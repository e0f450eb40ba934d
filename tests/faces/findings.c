/*
 * What saphyr_check finds in texts, and the misuse of its calls. Prints of each text whether it passes, and a line for
 * each finding and each note: the places from and to, the severity, the rule and the message. Checks each text with
 * every request for memory refused in turn too, and makes a call that was refused again: none is lost or doubled, and
 * all memory is freed. Prints what is wrong, and at last how many requests were refused.
 *
 * A text comes behind a line with the options: whether `standard` and `strict`, the bits of the rules that are off, in
 * the order of the header, the limits of depth, findings and nodes; and how many bytes the text has. Its lines end in
 * the byte FF. It is linked with --wrap for malloc, realloc and free.
 */
#include "saphyr_parser.h"

#include <stdio.h>
#include <stdlib.h>
#include <string.h>

enum { SHORT = 2000 };

void *__real_malloc(size_t count);
void *__real_realloc(void *block, size_t count);
void __real_free(void *block);

/* How many requests are granted before the refused one, -1 where none is refused; and how many blocks aren't freed. */
static long granted = -1, blocks;
static bool was_refused;
static size_t refused = 0;
static int failed = 0;

static bool is_refused(void) {
    if (granted < 0 || granted-- > 0) {
        return false;
    }
    was_refused = true;
    return true;
}

void *__wrap_malloc(size_t count) {
    void *block = is_refused() ? NULL : __real_malloc(count);
    blocks += block != NULL;
    return block;
}

void *__wrap_realloc(void *block, size_t count) {
    void *moved = is_refused() ? NULL : __real_realloc(block, count);
    blocks += moved != NULL && !block;
    return moved;
}

void __wrap_free(void *block) {
    blocks -= block != NULL;
    __real_free(block);
}

static void expect(bool holds, const char *what) {
    if (!holds) {
        printf("wrong: %s\n", what);
        failed = 1;
    }
}

static bool is_blank(const saphyr_finding *it) {
    return !it->severity && !it->start.line && !it->end.line && !it->rule.at && !it->message.at && !it->message.len;
}

/* A call that says, once, that there is no memory, made again. */
static int32_t next(int32_t (*call)(saphyr_findings *, saphyr_finding *), saphyr_findings *from, saphyr_finding *to) {
    int32_t status = call(from, to);
    if (status == SAPHYR_NO_MEMORY) {
        expect(was_refused && is_blank(to), "a call without memory writes no finding");
        status = call(from, to);
    }
    return status;
}

static void print_place(FILE *out, const saphyr_marker *place, char behind) {
    fprintf(out, "%zu:%zu%c", place->line, place->col + 1, behind);
}

static void print_finding(FILE *out, const saphyr_finding *it) {
    print_place(out, &it->start, '-');
    print_place(out, &it->end, ' ');
    fprintf(out, "%d %.*s ", (int)it->severity, (int)it->rule.len, (const char *)it->rule.at);
    fwrite(it->message.at, 1, it->message.len, out);
    putc('\n', out);
}

/* Whether a text passes, and what is found in it. */
static void print_all(FILE *out, const uint8_t *text, size_t len, const saphyr_check_options *options) {
    saphyr_findings findings = {0};
    saphyr_finding finding = {0}, note = {0};
    int32_t status = saphyr_check(text, len, options, &findings);
    if (status == SAPHYR_NO_MEMORY) {
        expect(was_refused && !findings.at, "a check without memory leaves an empty handle");
        expect(saphyr_next_finding(&findings, &finding) == SAPHYR_NOT_CHECKED, "nothing is checked");
        status = saphyr_check(text, len, options, &findings);
    }
    expect(status == SAPHYR_OK || status == SAPHYR_WRONG, "a status of a check");
    fprintf(out, "%s\n", status == SAPHYR_OK ? "passes" : "fails");
    expect(next(saphyr_next_note, &findings, &note) == SAPHYR_END, "no notes before the first finding");
    while ((status = next(saphyr_next_finding, &findings, &finding)) == SAPHYR_FINDING) {
        print_finding(out, &finding);
        while ((status = next(saphyr_next_note, &findings, &note)) == SAPHYR_FINDING) {
            print_finding(out, &note);
        }
        expect(status == SAPHYR_END && is_blank(&note), "the end of the notes");
    }
    expect(status == SAPHYR_END && is_blank(&finding), "the end of the findings");
    expect(saphyr_next_finding(&findings, &finding) == SAPHYR_END, "the end again");
    saphyr_free_findings(&findings);
    expect(saphyr_next_note(&findings, &note) == SAPHYR_NOT_CHECKED && is_blank(&note), "a handle that was freed");
}

/* The same lines with each request refused in turn. */
static void refuse_each(const uint8_t *text, size_t len, const saphyr_check_options *options, const char *wanted) {
    was_refused = true;
    for (long turn = 0; was_refused; turn++) {
        char *lines;
        size_t count;
        FILE *out = open_memstream(&lines, &count);
        blocks = 0;
        was_refused = false;
        granted = turn;
        print_all(out, text, len, options);
        granted = -1;
        fclose(out);
        expect(!strcmp(lines, wanted), "what is found where a request is refused");
        expect(!blocks, "what is freed where a request is refused");
        refused += was_refused;
        __real_free(lines);
    }
}

static void check(const uint8_t *text, size_t len, const saphyr_check_options *options) {
    char *lines;
    size_t count;
    FILE *out = open_memstream(&lines, &count);
    blocks = 0;
    print_all(out, text, len, options);
    fclose(out);
    expect(!blocks, "what is freed");
    if (len <= SHORT) {
        refuse_each(text, len, options, lines);
    }
    fwrite(lines, 1, count, stdout);
    putchar(0xff);
    __real_free(lines);
}

/* Empty handles, NULL, a handle that is used again, notes that are passed over, and a text that is gone. */
static void misuse(void) {
    saphyr_findings findings = {0};
    saphyr_finding finding = {0};
    char text[] = "a: [1\nb: 2\n";
    finding.severity = SAPHYR_ERROR;
    finding.start.line = 7;
    expect(saphyr_next_finding(&findings, &finding) == SAPHYR_NOT_CHECKED && is_blank(&finding), "an empty handle");
    expect(saphyr_next_note(&findings, &finding) == SAPHYR_NOT_CHECKED, "an empty handle has no notes");
    saphyr_free_findings(&findings);
    saphyr_free_findings(NULL);
    expect(saphyr_check(NULL, 0, NULL, &findings) == SAPHYR_OK && findings.at, "no bytes pass");
    expect(saphyr_next_finding(&findings, &finding) == SAPHYR_END, "no bytes have no finding");
    expect(saphyr_check((uint8_t *)text, sizeof text - 1, NULL, &findings) == SAPHYR_WRONG, "a bracket that is open");
    memset(text, 'x', sizeof text);
    expect(saphyr_next_finding(&findings, &finding) == SAPHYR_FINDING, "the error at the bracket");
    expect(finding.start.index == 3 && finding.severity == SAPHYR_ERROR, "the place of the bracket");
    expect(saphyr_next_finding(&findings, &finding) == SAPHYR_END, "no more, and the notes are not asked for");
    expect(saphyr_next_note(&findings, &finding) == SAPHYR_FINDING, "the note behind the end");
    expect(saphyr_next_note(&findings, &finding) == SAPHYR_END, "there is one");
    saphyr_free_findings(&findings);
    saphyr_free_findings(&findings);
}

int main(void) {
    int standard, strict;
    unsigned disabled;
    saphyr_check_options options = {0};
    size_t len;
    misuse();
    while (scanf("%d %d %u %zu %zu %zu %zu", &standard, &strict, &disabled, &options.max_depth, &options.max_findings,
                 &options.max_nodes, &len) == 7 &&
           getchar() == '\n') {
        uint8_t *text = __real_malloc(len + 1);
        if (!text || fread(text, 1, len, stdin) != len) {
            return 2;
        }
        options.standard = standard;
        options.strict = strict;
        options.disable.alias_in_itself = disabled & 1;
        options.disable.duplicate_key = disabled >> 1 & 1;
        options.disable.empty_document = disabled >> 2 & 1;
        options.disable.max_depth = disabled >> 3 & 1;
        options.disable.max_nodes = disabled >> 4 & 1;
        options.disable.wide_alias = disabled >> 5 & 1;
        check(text, len, &options);
        __real_free(text);
    }
    printf("%zu\n", refused);
    return failed;
}
