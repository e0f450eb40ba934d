/*
 * Reads texts from standard input, and prints the events of each with their places, as the cases of
 * crates/test_cases have them. Each is peeked before it is taken, and a clone has to give it too.
 *
 * A text comes behind a line with `1` or `0`, for `keep_tags`, and how many bytes it has. Its lines end in the byte FF.
 */
#include "printing.h"

/* What a call answered, and its line: none where there was nothing to give. */
struct answer {
    int32_t status;
    char *line;
    size_t len;
};

static void print_answer(FILE *out, int32_t status, const saphyr_event *event) {
    const saphyr_marker *start = &event->start, *end = &event->end;
    if (status == SAPHYR_EVENT) {
        fputs("> ", out);
        static struct printer line;
        line.file = out;
        print_event(&line, event);
        flush(&line);
        fputs(event->is_explicit ? " ---" : "", out);
        fprintf(out, " @ %zu,%zu,%zu", start->index, start->line, start->col);
        fprintf(out, " %zu,%zu,%zu\n", end->index, end->line, end->col);
    } else if (status == SAPHYR_REFUSED) {
        fputs("! ", out);
        print_fault(out, event);
        putc('\n', out);
    } else if (status != SAPHYR_END) {
        fprintf(out, "status %d\n", (int)status);
    }
}

/* What `saphyr_next` or `saphyr_peek` answers. */
static struct answer answer_of(int32_t (*call)(saphyr_parser *, saphyr_event *), saphyr_parser *parser) {
    saphyr_event event = {0};
    struct answer answer = {call(parser, &event), NULL, 0};
    FILE *out = open_memstream(&answer.line, &answer.len);
    print_answer(out, answer.status, &event);
    fclose(out);
    return answer;
}

/* What a clone answers to `saphyr_next`. */
static struct answer answer_of_clone(saphyr_parser *parser) {
    saphyr_parser copy = {0};
    int32_t status = saphyr_clone(parser, &copy);
    struct answer answer = answer_of(saphyr_next, &copy);
    if (status != SAPHYR_OK) {
        printf("no clone: status %d\n", (int)status);
    }
    saphyr_free(&copy);
    return answer;
}

/* Says so where another way gave something else. */
static void compare(const struct answer *answer, struct answer other, const char *way) {
    bool is_same = other.status == answer->status && other.len == answer->len;
    if (!is_same || memcmp(other.line, answer->line, other.len) != 0) {
        printf("%s, status %d: %s", way, (int)other.status, other.line);
    }
    free(other.line);
}

static void print_case(const uint8_t *text, size_t len, bool keep_tags) {
    saphyr_parser parser = {0};
    int32_t status = saphyr_new(text, len, keep_tags, &parser);
    if (status != SAPHYR_OK) {
        printf("no parser: status %d\n", (int)status);
    }
    do {
        struct answer cloned = answer_of_clone(&parser);
        struct answer peeked = answer_of(saphyr_peek, &parser);
        struct answer answer = answer_of(saphyr_next, &parser);
        fwrite(answer.line, 1, answer.len, stdout);
        compare(&answer, cloned, "by a clone");
        compare(&answer, peeked, "by a peek");
        free(answer.line);
        status = answer.status;
    } while (status == SAPHYR_EVENT);
    compare(&(struct answer){SAPHYR_END, "", 0}, answer_of(saphyr_next, &parser), "behind the end");
    saphyr_free(&parser);
    putchar(0xff);
}

int main(void) {
    int keep_tags;
    size_t len;
    while (scanf("%d %zu", &keep_tags, &len) == 2 && getchar() == '\n') {
        uint8_t *text = malloc(len + 1);
        if (!text || fread(text, 1, len, stdin) != len) {
            return 2;
        }
        print_case(text, len, keep_tags == 1);
        free(text);
    }
    return 0;
}
