/*
 * Reads texts from standard input, and prints the events of each with their places, as the cases of
 * crates/test_cases have them. Each comes in pieces of as many bytes as the argument says. Now and then the next event
 * is peeked before it is taken, and clones have to give it too. With `lines` each piece is a line, and with `bytes` a
 * byte. With `ends` a line's end is a piece of its own; with `odd` and `even` the next line comes with it, if that has
 * such a number. Behind each of these pieces comes a line with `~` and how many bytes came. With `cuts` the text comes
 * whole, and a text of at most 200 bytes also in two pieces, cut at each place: it says where that gives something
 * else.
 *
 *     pieces COUNT | lines | ends | odd | even | bytes | cuts
 *
 * A text comes behind a line with `1` or `0`, for `keep_tags`, and how many bytes it has. Its lines end in the byte FF.
 */
#include "printing.h"

static struct printer line;

static void print_answer(int32_t status, const saphyr_event *event) {
    const saphyr_marker *start = &event->start, *end = &event->end;
    if (status == SAPHYR_EVENT) {
        print_bytes(&line, "> ", 2);
        print_event(&line, event);
        flush(&line);
        fprintf(line.file, "%s @ %zu,%zu,%zu", event->is_explicit ? " ---" : "", start->index, start->line, start->col);
        fprintf(line.file, " %zu,%zu,%zu\n", end->index, end->line, end->col);
    } else if (status == SAPHYR_REFUSED) {
        fputs("! ", line.file);
        print_fault(line.file, event);
        putc('\n', line.file);
    } else if (status != SAPHYR_END) {
        fprintf(line.file, "status %d\n", (int)status);
    }
}

/* Whether two events have the same numbers, and texts of the same length. */
static bool is_same(const saphyr_event *one, const saphyr_event *other) {
    return one->kind == other->kind && one->style == other->style && one->is_explicit == other->is_explicit &&
           one->has_tag == other->has_tag && one->anchor == other->anchor &&
           !memcmp(&one->start, &other->start, sizeof one->start) && !memcmp(&one->end, &other->end, sizeof one->end) &&
           one->value.len == other->value.len && one->tag_handle.len == other->tag_handle.len &&
           one->tag_suffix.len == other->tag_suffix.len;
}

/* The next event, which a peek and clones before and behind it have to give too. */
static int32_t next_in_each_way(saphyr_parser *parser, saphyr_event *event) {
    saphyr_parser before = {0}, behind = {0};
    saphyr_event peeked = {0}, first = {0}, second = {0};
    int32_t cloned = saphyr_clone(parser, &before), status = saphyr_peek(parser, &peeked);
    cloned += saphyr_clone(parser, &behind);
    if (cloned != SAPHYR_OK || saphyr_next(&before, &first) != status || saphyr_next(&behind, &second) != status ||
        saphyr_next(parser, event) != status || !is_same(&peeked, event) || !is_same(&first, event) ||
        !is_same(&second, event)) {
        fprintf(line.file, "a peek or a clone gives something else\n");
    }
    saphyr_free(&before);
    saphyr_free(&behind);
    return status;
}

/* Whether it is said how many bytes came, and whether pieces end before a line's end too. */
static bool says_came, cuts_ends;

/* A line with a number that has this rest by 2 comes with the end of the one before, unless the rest is 2. */
static size_t goes_on = 2, number;

/* Whether a piece ends there, behind its first byte. */
static bool is_cut(const uint8_t *at) {
    bool is_line = at[-1] == '\n' && ++number % 2 != goes_on;
    return is_line || (cuts_ends && (*at == '\r' || *at == '\n'));
}

/* How many bytes the next piece has. A `count` of 0 stands for a line. */
static size_t piece_of(const uint8_t *text, size_t len, size_t count) {
    size_t piece = 0;
    while (piece < len && (count ? piece < count : !piece || !is_cut(text + piece))) {
        piece++;
    }
    return piece;
}

/* In pieces of `count` bytes, or of lines, of which the first has `first` bytes, unless that is 0. */
static void print_case(const uint8_t *text, size_t len, bool keep_tags, size_t count, size_t first) {
    saphyr_parser parser = {0};
    saphyr_event event = {0};
    size_t added = 0, calls = 0;
    int32_t status = saphyr_new_pieces(keep_tags, 0, 0, &parser);
    number = 0;
    while (status >= 0) {
        bool is_plain = len > 500 || calls++ % 4 > 0;
        status = is_plain ? saphyr_next(&parser, &event) : next_in_each_way(&parser, &event);
        if (status != SAPHYR_MORE) {
            print_answer(status, &event);
            if (status != SAPHYR_EVENT) {
                break;
            }
            continue;
        }
        /* A copy, so that valgrind sees a read past the piece, or after the call. */
        size_t piece = first && !added ? first : piece_of(text + added, len - added, count);
        uint8_t *bytes = malloc(piece + 1);
        memcpy(bytes, text + added, piece);
        status = saphyr_add(&parser, bytes, piece);
        free(bytes);
        added += piece;
        if (says_came) {
            fprintf(line.file, "~ %zu\n", added);
        }
        if (status != SAPHYR_OK) {
            print_answer(status, &event);
        }
    }
    saphyr_free(&parser);
}

/* A buffer with the lines of a text that is cut behind so many bytes. */
static char *lines_of(const uint8_t *text, size_t len, bool keep_tags, size_t cut, size_t *size) {
    char *lines = NULL;
    line.file = open_memstream(&lines, size);
    if (!line.file) {
        exit(2);
    }
    print_case(text, len, keep_tags, len + 1, cut);
    fclose(line.file);
    return lines;
}

static void print_cuts(const uint8_t *text, size_t len, bool keep_tags) {
    size_t size, other_size;
    char *whole = lines_of(text, len, keep_tags, 0, &size);
    fwrite(whole, 1, size, stdout);
    for (size_t cut = 1; cut < len && len <= 200; cut++) {
        char *other = lines_of(text, len, keep_tags, cut, &other_size);
        if (size != other_size || memcmp(whole, other, size)) {
            printf("something else, cut behind %zu bytes\n", cut);
        }
        free(other);
    }
    free(whole);
}

int main(int argc, char **argv) {
    const char *how = argc == 2 ? argv[1] : "1";
    size_t len, count = strtoul(how, NULL, 10); /* A word is no number, and so 0. */
    bool cuts = !strcmp(how, "cuts"), odd = !strcmp(how, "odd"), even = !strcmp(how, "even");
    int keep_tags;
    says_came = !count && !cuts;
    cuts_ends = odd || even || !strcmp(how, "ends");
    goes_on = odd ? 1 : even ? 0 : 2;
    count += !strcmp(how, "bytes");
    while (scanf("%d %zu", &keep_tags, &len) == 2 && getchar() == '\n') {
        uint8_t *text = malloc(len + 1);
        if (!text || fread(text, 1, len, stdin) != len) {
            return 2;
        }
        if (cuts) {
            print_cuts(text, len, keep_tags == 1);
        } else {
            line.file = stdout;
            print_case(text, len, keep_tags == 1, count, 0);
        }
        putchar(0xff);
        free(text);
    }
    return 0;
}
