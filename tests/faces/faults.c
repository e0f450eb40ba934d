/*
 * Reads texts from standard input, and says of each that is refused whether its fault comes late if the text is added
 * line by line: the rule for faults of docs/FACES.md, "From a pipe".
 *
 * Lines tell a fault if it is that of all texts that go on behind them in the ways below. It has to come with the last
 * of these lines, or with the next one that has content, whichever that is. Where the lines have 256 bytes or more,
 * eight times as many may have to come again.
 *
 *     faults
 *
 * A text comes behind a line with `1` or `0`, for `keep_tags`, and how many bytes it has. If its fault comes late, the
 * answer is a letter, how many bytes tell the fault, and the fault. The letter is `m` if the fault does not come with
 * the line of a marker either, and otherwise `l`. An answer ends in the byte FF.
 */
#include "printing.h"

/* How a text may go on: with content in some columns, what ends a document, a bracket, a quote or an escape, what may
   stand in front of a node, other scripts, lines without content, and nothing. */
static const char *const later[] = {
    "x\n", " x\n", "    x\n", "x: y\n", "  x: y\n", "- x\n", " - x\n", "? x\n", ": x\n", " : x\n", "]\n", " ]\n",
    "}\n", " }\n", "]: x\n", "}: x\n", " ]]}: x\n", ", x\n", " , x\n", "\"\n", " '\n", "\": x\n", "': x\n", " \"]\n",
    " ']}\n", "...\n", "---\n", "--- x\n", "&a x\n", "*a\n", "!t x\n", "|\n  x\n", "\tx\n", "@\n", "0\": x\n",
    "20\"\n", "%YAML 1.2\n---\n", "\xe4\xb8\xad: \xd0\xb6\n", "\n", "# c\n", " # c\n", "\n\n ]\n: x\n", "",
};

enum { LATER = sizeof later / sizeof *later, LITTLE = 256, TIMES = 9 };

/* How a text ends. */
struct fault {
    int32_t status;
    saphyr_marker place;
    char info[128];
};

/* How the events that a parser has now end. */
static struct fault read_on(saphyr_parser *parser) {
    struct fault fault = {0};
    saphyr_event event = {0};
    while ((fault.status = saphyr_next(parser, &event)) == SAPHYR_EVENT) {
    }
    fault.place = event.start;
    snprintf(fault.info, sizeof fault.info, "%.*s", (int)event.value.len, (const char *)event.value.at);
    return fault;
}

/* The fault of a whole text, which ends in some more bytes. */
static struct fault fault_of(const uint8_t *text, size_t len, bool keep_tags, const char *more) {
    saphyr_parser parser = {0};
    size_t behind = strlen(more);
    uint8_t *all = malloc(len + behind + 1);
    memcpy(all, text, len);
    memcpy(all + len, more, behind);
    saphyr_new(all, len + behind, keep_tags, &parser);
    struct fault fault = read_on(&parser);
    saphyr_free(&parser);
    free(all);
    return fault;
}

static bool is_same(const struct fault *one, const struct fault *other) {
    return one->status == other->status && !memcmp(&one->place, &other->place, sizeof one->place) &&
           !strcmp(one->info, other->info);
}

/* Whether the first bytes of a text tell its fault. */
static bool is_told(const uint8_t *text, size_t len, bool keep_tags, const struct fault *fault) {
    for (size_t at = 0; at < LATER; at++) {
        struct fault other = fault_of(text, len, keep_tags, later[at]);
        if (!is_same(&other, fault)) {
            return false;
        }
    }
    return true;
}

/* Behind a line's end, or the text's. */
static size_t line_end(const uint8_t *text, size_t len, size_t at) {
    while (at < len && text[at] != '\n') {
        at++;
    }
    return at < len ? at + 1 : len;
}

/* Adds a line, and says whether the fault has come. */
static bool comes_with(saphyr_parser *parser, const void *line, size_t len) {
    saphyr_add(parser, line, len);
    return read_on(parser).status == SAPHYR_REFUSED;
}

/* Whether the fault comes with a line behind those that a parser has, or with many where so much waits. */
static bool comes_behind(saphyr_parser *parser, size_t *waits, const char *line) {
    size_t piece = strcspn(line, "\n") + 1, most = *waits < LITTLE ? piece : TIMES * *waits, added = 0;
    bool came = false;
    for (; !came && added < most; added += piece) {
        came = comes_with(parser, line, piece);
    }
    *waits += added;
    return came;
}

/* The letter of a fault, if these lines tell it and another one comes behind them, or 0 if it comes with that. */
static char letter_behind(saphyr_parser *parser, size_t waits, const char *line) {
    saphyr_parser copy = {0};
    saphyr_clone(parser, &copy);
    bool came = comes_behind(&copy, &waits, line);
    char letter = came ? 0 : comes_behind(&copy, &waits, "...\n") ? 'l' : 'm';
    saphyr_free(&copy);
    return letter;
}

/* Whether a line has content: others need not bring a fault. */
static bool has_content(const char *line) {
    char first = line[strspn(line, " ")];
    return first && first != '\n' && first != '#';
}

/* The letter of the fault that the first bytes of a text tell, or 0 if it comes in time. */
static char letter_of(const uint8_t *text, size_t len, bool keep_tags) {
    saphyr_parser parser = {0};
    bool came = false;
    char letter = 0;
    saphyr_new_pieces(keep_tags, 0, 0, &parser);
    for (size_t at = 0, end; !came && at < len; at = end) {
        end = line_end(text, len, at);
        came = comes_with(&parser, text + at, end - at);
    }
    for (size_t at = 0; !came && letter != 'm' && at < LATER; at++) {
        char other = has_content(later[at]) ? letter_behind(&parser, len, later[at]) : 0;
        letter = other ? other : letter;
    }
    saphyr_free(&parser);
    return letter;
}

static void print_late(const uint8_t *text, size_t len, bool keep_tags) {
    struct fault fault = fault_of(text, len, keep_tags, "");
    size_t end = 0;
    while (fault.status == SAPHYR_REFUSED && end < len) {
        end = line_end(text, len, end);
        if (text[end - 1] == '\n' && is_told(text, end, keep_tags, &fault)) {
            char letter = letter_of(text, end, keep_tags);
            if (letter) {
                printf("%c %zu %s at character %zu", letter, end, fault.info, fault.place.index);
            }
            return;
        }
    }
}

int main(void) {
    size_t len;
    int keep_tags;
    while (scanf("%d %zu", &keep_tags, &len) == 2 && getchar() == '\n') {
        uint8_t *text = malloc(len + 1);
        if (!text || fread(text, 1, len, stdin) != len) {
            return 2;
        }
        print_late(text, len, keep_tags == 1);
        putchar(0xff);
        free(text);
    }
    return 0;
}
