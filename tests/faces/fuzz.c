/*
 * Reads texts through the C face, whole and in pieces, and stops where the two give different events, or where an event
 * breaks a rule of the header. The texts need not be UTF-8.
 *
 * With `clang -fsanitize=fuzzer` it is a target of libFuzzer. Otherwise it is a program: each text on standard input
 * comes behind a line with how many bytes it has, and at the end the program prints how many texts there were.
 */
#include "printing.h"

/* What is known of the events so far. */
struct progress {
    size_t events;
    size_t open;
    size_t anchors;
    size_t characters;
    bool in_document;
};

/* A text that comes in pieces, whose lengths depend on the text alone. */
struct pieces {
    saphyr_parser parser;
    const uint8_t *text;
    size_t len;
    size_t added;
    uint32_t seed;
};

static void fail(const char *why) {
    fprintf(stderr, "fuzz: %s\n", why);
    abort();
}

static void check(bool holds, const char *otherwise) {
    if (!holds) {
        fail(otherwise);
    }
}

static bool is_same_marker(const saphyr_marker *one, const saphyr_marker *other) {
    return one->index == other->index && one->line == other->line && one->col == other->col;
}

static bool is_same_text(saphyr_text one, saphyr_text other) {
    return one.len == other.len && (one.len == 0 || memcmp(one.at, other.at, one.len) == 0);
}

static bool is_same(const saphyr_event *one, const saphyr_event *other) {
    return one->kind == other->kind && one->style == other->style && one->is_explicit == other->is_explicit &&
           one->has_tag == other->has_tag && one->anchor == other->anchor &&
           is_same_marker(&one->start, &other->start) && is_same_marker(&one->end, &other->end) &&
           is_same_text(one->value, other->value) && is_same_text(one->tag_handle, other->tag_handle) &&
           is_same_text(one->tag_suffix, other->tag_suffix);
}

/* Whether the node's anchor is none, or the next id: ids are given one after the other. */
static void take_anchor(struct progress *so_far, size_t anchor) {
    check(anchor == 0 || anchor == so_far->anchors + 1, "the id of an anchor is not the next one");
    so_far->anchors += anchor != 0;
}

/* The rules of the header on the order of events. */
static void take_event(struct progress *so_far, const saphyr_event *event) {
    check(event->start.index <= event->end.index, "a span ends before it starts");
    check(event->end.index <= so_far->characters, "a span ends behind the text");
    check(event->start.line >= 1 && event->start.col <= event->start.index, "a place has no such line or column");
    check((so_far->events == 0) == (event->kind == SAPHYR_STREAM_START), "the stream's start is not the first event");
    so_far->events++;
    switch (event->kind) {
    case SAPHYR_STREAM_START:
        return;
    case SAPHYR_STREAM_END:
        check(!so_far->in_document, "the stream ends inside a document");
        return;
    case SAPHYR_DOCUMENT_START:
        check(!so_far->in_document, "a document starts inside a document");
        so_far->in_document = true;
        return;
    case SAPHYR_DOCUMENT_END:
        check(so_far->in_document && so_far->open == 0, "a document ends inside a collection");
        so_far->in_document = false;
        return;
    default:
        check(so_far->in_document, "a node is outside documents");
    }
    switch (event->kind) {
    case SAPHYR_ALIAS:
        check(event->anchor >= 1 && event->anchor <= so_far->anchors, "an alias has an id that no anchor has");
        return;
    case SAPHYR_SCALAR:
        take_anchor(so_far, event->anchor);
        return;
    case SAPHYR_SEQUENCE_START:
    case SAPHYR_MAPPING_START:
        take_anchor(so_far, event->anchor);
        so_far->open++;
        return;
    case SAPHYR_SEQUENCE_END:
    case SAPHYR_MAPPING_END:
        check(so_far->open > 0, "a collection ends that did not start");
        so_far->open--;
        return;
    default:
        fail("an event is of no kind");
    }
}

/* The next answer, for which as many pieces are added as it asks for. */
static int32_t next_of_pieces(struct pieces *pieces, saphyr_event *event) {
    for (;;) {
        int32_t status = saphyr_next(&pieces->parser, event);
        if (status != SAPHYR_MORE) {
            return status;
        }
        size_t left = pieces->len - pieces->added, count = 1 + pieces->seed % 9;
        pieces->seed = pieces->seed * 1664525u + 1013904223u + (uint32_t)left;
        count = count < left ? count : left;
        status = saphyr_add(&pieces->parser, pieces->text + pieces->added, count);
        if (status != SAPHYR_OK) {
            return status;
        }
        pieces->added += count;
    }
}

/* A text that is no UTF-8: its parts are refused too, unless a fault of the text in front comes first. */
static void check_refusal(struct pieces *pieces, int32_t whole) {
    saphyr_event event = {0};
    int32_t status;
    check(whole == SAPHYR_NOT_UTF8 || whole == SAPHYR_UTF16, "a text is not taken, and not for its bytes");
    do {
        status = next_of_pieces(pieces, &event);
    } while (status == SAPHYR_EVENT);
    check(status == SAPHYR_NOT_UTF8 || status == SAPHYR_UTF16 || status == SAPHYR_REFUSED,
          "pieces are taken that are no UTF-8 together");
}

static size_t characters_of(const uint8_t *text, size_t len) {
    size_t count = 0;
    for (size_t i = 0; i < len; i++) {
        count += (text[i] & 0xc0) != 0x80;
    }
    return count;
}

/* All events, of the whole text and in pieces side by side. */
static void check_events(saphyr_parser *parser, struct pieces *pieces) {
    struct progress so_far = {.characters = characters_of(pieces->text, pieces->len)};
    saphyr_event event = {0}, other = {0};
    int32_t status;
    do {
        status = saphyr_next(parser, &event);
        check(next_of_pieces(pieces, &other) == status, "pieces give another status than the whole text");
        check((status != SAPHYR_EVENT && status != SAPHYR_REFUSED) || is_same(&event, &other),
              "pieces give another event than the whole text");
        if (status == SAPHYR_EVENT) {
            take_event(&so_far, &event);
        }
    } while (status == SAPHYR_EVENT);
    check(status == SAPHYR_END || status == SAPHYR_REFUSED, "a text ends with neither its end nor a fault");
    check(saphyr_next(parser, &event) == SAPHYR_END, "something comes behind the end");
}

int LLVMFuzzerTestOneInput(const uint8_t *text, size_t len);

int LLVMFuzzerTestOneInput(const uint8_t *text, size_t len) {
    static const uint8_t none[1];
    struct pieces pieces = {.text = text ? text : none, .len = len, .seed = (uint32_t)len};
    saphyr_parser parser = {0};
    int32_t status = saphyr_new(pieces.text, len, false, &parser);
    check(saphyr_new_pieces(false, 0, 0, &pieces.parser) == SAPHYR_OK, "no parser of pieces");
    check((status == SAPHYR_OK) == (saphyr_valid_up_to(pieces.text, len) == len), "a text is taken that is no UTF-8");
    if (status == SAPHYR_OK) {
        check_events(&parser, &pieces);
    } else {
        check_refusal(&pieces, status);
    }
    saphyr_free(&parser);
    saphyr_free(&pieces.parser);
    return 0;
}

#ifndef WITH_LIBFUZZER
int main(void) {
    size_t len, count = 0;
    while (scanf("%zu", &len) == 1 && getchar() == '\n') {
        uint8_t *text = malloc(len + 1);
        if (!text || fread(text, 1, len, stdin) != len) {
            return 2;
        }
        LLVMFuzzerTestOneInput(text, len);
        free(text);
        count++;
    }
    printf("%zu\n", count);
    return 0;
}
#endif
