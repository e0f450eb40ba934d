/*
 * Trees through the C face. Reads framed texts as `cases` does, loads each, and compares its trees with its events:
 * what is told of each node, its places, its parts by index and by key, the nodes of anchors, and where aliases lead;
 * loaded at once, and document by document, also of the text in pieces: its lines, its bytes, parts of a drawn length,
 * and of a short text two parts, cut at each place. Within drawn limits the documents of pieces are those of the whole
 * text, and of a text that is given up half way nothing is left. Loads each short text with every request for memory
 * refused in turn. Misuses the calls. Prints what is wrong, and how many nodes there were, and how many requests were
 * refused. It is linked with --wrap for malloc, realloc and free.
 *
 *     trees [ROUNDS]
 *
 * What is drawn is drawn so many times for each text, once if that is left out.
 */
#include "saphyr_parser.h"

#include <stdio.h>
#include <stdlib.h>
#include <string.h>

enum { LARGE = 1000000, SHORT = 60, DOCUMENTS = 8 };

void *__real_malloc(size_t count);
void *__real_realloc(void *block, size_t count);
void __real_free(void *block);

static int failed = 0;
static size_t nodes = 0, refused = 0;

/* How many requests are granted before the refused one, -1 where none is refused; and how many blocks aren't freed. */
static long granted = -1, blocks;
static bool was_refused;

static bool is_refused(void) {
    if (granted < 0 || granted-- > 0) {
        return false;
    }
    was_refused = true;
    return true;
}

void *__wrap_malloc(size_t count) {
    void *block = is_refused() ? NULL : __real_malloc(count);
    blocks += block != NULL;
    return block;
}

void *__wrap_realloc(void *block, size_t count) {
    void *moved = is_refused() ? NULL : __real_realloc(block, count);
    blocks += moved != NULL && !block;
    return moved;
}

void __wrap_free(void *block) {
    blocks -= block != NULL;
    __real_free(block);
}

static void fail(const char *what) {
    printf("%s\n", what);
    failed = 1;
}

static bool is_same_text(saphyr_text a, saphyr_text b) {
    return (a.at == NULL) == (b.at == NULL) && a.len == b.len && (a.len == 0 || memcmp(a.at, b.at, a.len) == 0);
}

static bool is_same_place(saphyr_marker a, saphyr_marker b) {
    return a.index == b.index && a.line == b.line && a.col == b.col;
}

/* What is told of a node is the event, but for its end. */
static bool is_same(const saphyr_event *a, const saphyr_event *b) {
    return a->kind == b->kind && a->style == b->style && a->is_explicit == b->is_explicit && a->has_tag == b->has_tag &&
           a->anchor == b->anchor && is_same_place(a->start, b->start) && is_same_text(a->value, b->value) &&
           is_same_text(a->tag_handle, b->tag_handle) && is_same_text(a->tag_suffix, b->tag_suffix);
}

/* What is told of a key, or of the node that it names. */
static saphyr_event told_of_key(saphyr_parser *trees, saphyr_node node, size_t at) {
    saphyr_event event = {0};
    saphyr_describe(trees, saphyr_key(trees, node, at), &event);
    if (event.kind == SAPHYR_ALIAS) {
        saphyr_describe(trees, saphyr_anchored(trees, event.anchor), &event);
    }
    return event;
}

/* Looks up each key of a mapping, that `of` is or names. The first of equal keys counts. */
static void check_keys(saphyr_parser *trees, saphyr_node of, saphyr_node node) {
    for (size_t at = 0; at < saphyr_count(trees, node); at++) {
        saphyr_event key = told_of_key(trees, node, at), other;
        if (key.kind != SAPHYR_SCALAR) {
            continue;
        }
        size_t first = 0;
        do {
            other = told_of_key(trees, node, first++);
        } while (other.kind != SAPHYR_SCALAR || !is_same_text(key.value, other.value));
        saphyr_node found = saphyr_get(trees, of, (const char *)key.value.at, key.value.len);
        if (found != saphyr_value(trees, node, first - 1)) {
            fail("a key is looked up wrongly");
        }
    }
}

/* An alias leads to a node with its anchor, which began before it, and any other node to itself. */
static void check_followed(saphyr_parser *trees, saphyr_node node, const saphyr_event *event) {
    saphyr_event named = {0};
    saphyr_node found = saphyr_follow(trees, node);
    if (event->kind != SAPHYR_ALIAS) {
        if (found != node) {
            fail("a node that is no alias leads to another");
        }
        return;
    }
    saphyr_describe(trees, found, &named);
    if (named.anchor != event->anchor || named.kind == SAPHYR_ALIAS || named.kind == SAPHYR_NOTHING ||
        named.start.index > event->start.index) {
        fail("an alias leads to another node");
    }
    check_keys(trees, node, found);
    if (saphyr_count(trees, node) != 0 || saphyr_item(trees, node, 0) != SAPHYR_NO_NODE ||
        saphyr_key(trees, node, 0) != SAPHYR_NO_NODE || saphyr_value(trees, node, 0) != SAPHYR_NO_NODE) {
        fail("a walk follows an alias");
    }
}

/* Goes through a node beside the events of its text, of which the first one is the parser's next. */
static void check_node(saphyr_parser *trees, saphyr_node node, saphyr_parser *parser) {
    saphyr_event told = {0}, event = {0};
    nodes++;
    if (saphyr_describe(trees, node, &told) != SAPHYR_EVENT || saphyr_next(parser, &event) != SAPHYR_EVENT ||
        !is_same(&told, &event)) {
        fail("a node is told wrongly");
        return;
    }
    if (event.anchor && event.kind != SAPHYR_ALIAS && saphyr_anchored(trees, event.anchor) != node) {
        fail("an anchor leads to another node");
    }
    check_followed(trees, node, &event);
    if (event.kind == SAPHYR_SEQUENCE_START || event.kind == SAPHYR_MAPPING_START) {
        bool pairs = event.kind == SAPHYR_MAPPING_START;
        size_t count = saphyr_count(trees, node);
        for (size_t at = 0; at < count; at++) {
            check_node(trees, pairs ? saphyr_key(trees, node, at) : saphyr_item(trees, node, at), parser);
            if (pairs) {
                check_node(trees, saphyr_value(trees, node, at), parser);
            }
        }
        if (saphyr_item(trees, node, pairs ? 0 : count) != SAPHYR_NO_NODE ||
            saphyr_key(trees, node, pairs ? count : 0) != SAPHYR_NO_NODE ||
            saphyr_value(trees, node, SIZE_MAX) != SAPHYR_NO_NODE) {
            fail("a part is found that isn't there");
        }
        check_keys(trees, node, node);
        saphyr_next(parser, &event);
        if (event.kind != (pairs ? SAPHYR_MAPPING_END : SAPHYR_SEQUENCE_END)) {
            fail("a collection has other parts");
        }
    }
    if (!is_same_place(told.end, event.end)) {
        fail("a node ends at another place");
    }
}

/* Compares the trees of a text with its events. */
static void check(const uint8_t *text, size_t len, bool keep_tags) {
    saphyr_parser trees = {0}, parser = {0};
    saphyr_event event = {0}, fault = {0};
    size_t document = 0;
    int32_t status;
    if (saphyr_new(text, len, keep_tags, &trees) || saphyr_new(text, len, keep_tags, &parser)) {
        fail("no parser");
        return;
    }
    int32_t loaded = saphyr_load(&trees, LARGE, LARGE, &fault);
    if (loaded == SAPHYR_OK) {
        while ((status = saphyr_next(&parser, &event)) == SAPHYR_EVENT) {
            if (event.kind == SAPHYR_DOCUMENT_START) {
                saphyr_node root = saphyr_root(&trees, document);
                check_node(&trees, root, &parser);
                if (saphyr_expanded(&trees, document) == 0) {
                    fail("a document has no nodes");
                }
                document++;
            }
        }
    } else {
        while ((status = saphyr_next(&parser, &event)) == SAPHYR_EVENT) {
        }
        if (loaded != status || !is_same(&fault, &event)) {
            fail("a refusal is told wrongly");
        }
    }
    if (saphyr_root(&trees, document) != SAPHYR_NO_NODE || saphyr_expanded(&trees, document) != 0) {
        fail("there is a document more");
    }
    saphyr_free(&trees);
    saphyr_free(&parser);
}

/* How a text comes: whole, by lines, by bytes, by parts of a drawn length of which many are short, or cut in two. */
enum how { WHOLE, LINES, BYTES, DRAWN, CUT };

/* A text that comes so, how many of its bytes came, and where it is cut. */
struct text {
    const uint8_t *at;
    size_t len, came;
    enum how how;
    size_t cut;
};

static uint32_t drawn = 1;

static uint32_t draw(uint32_t below) {
    drawn = drawn * 1664525u + 1013904223u;
    return (drawn >> 8) % below;
}

static size_t next_piece(const struct text *text) {
    const uint8_t *from = text->at + text->came;
    size_t left = text->len - text->came, piece = text->how == DRAWN ? 1 + draw(draw(4) ? 4 : 400) : 1;
    if (text->how == LINES) {
        const uint8_t *end = memchr(from, '\n', left);
        piece = end ? (size_t)(end - from) + 1 : left;
    } else if (text->how == CUT) {
        piece = text->came ? left : text->cut;
    }
    return piece < left ? piece : left;
}

/* Adds the next piece, of a copy that is freed at once. Behind the last it says that no more comes. */
static int32_t add_piece(saphyr_parser *parser, struct text *text) {
    size_t piece = next_piece(text);
    uint8_t *bytes = __real_malloc(piece + 1);
    memcpy(bytes, text->at + text->came, piece);
    int32_t status = saphyr_add(parser, bytes, piece);
    __real_free(bytes);
    text->came += piece;
    return status;
}

/* Where a document waits, a clone has no event either, for the same reason. */
static void check_waiting(saphyr_parser *trees, int32_t status) {
    saphyr_parser copy = {0};
    saphyr_event event = {0};
    if (saphyr_clone(trees, &copy) != SAPHYR_OK || saphyr_next(&copy, &event) != status) {
        fail("a document waits, and an event does not");
    }
    saphyr_free(&copy);
}

static int32_t start(saphyr_parser *parser, struct text *text, bool keep_tags) {
    text->came = 0;
    return text->how == WHOLE ? saphyr_new(text->at, text->len, keep_tags, parser)
                              : saphyr_new_pieces(keep_tags, 0, 0, parser);
}

/* Loads the next document within limits, and adds pieces as long as it waits for more. Now and then it peeks or makes a
   clone, which changes nothing. If there is no memory for a piece the next call says so. */
static int32_t load_within(saphyr_parser *trees, struct text *text, size_t most, size_t depth, saphyr_event *event) {
    for (;;) {
        int32_t status = saphyr_load_next(trees, most, depth, event);
        if (status != SAPHYR_MORE) {
            return status;
        }
        if (text->how == WHOLE || event->kind != SAPHYR_NOTHING || event->start.line == 0 ||
            saphyr_root(trees, 0) != SAPHYR_NO_NODE) {
            fail("a document that waits is told wrongly");
            return status;
        }
        if (granted < 0 && draw(3) == 0) {
            check_waiting(trees, status);
        }
        int32_t added = add_piece(trees, text);
        if (added != SAPHYR_OK && added != SAPHYR_NO_MEMORY) {
            return added;
        }
        if (text->how == DRAWN && draw(3) == 0) {
            saphyr_peek(trees, event);
        }
    }
}

static int32_t load_next(saphyr_parser *trees, struct text *text, saphyr_event *event) {
    return load_within(trees, text, LARGE, LARGE, event);
}

/* Compares the documents of a text, loaded one by one, with its events. */
static void check_each(struct text text, bool keep_tags) {
    saphyr_parser trees = {0}, parser = {0};
    saphyr_event event = {0}, fault = {0};
    int32_t loaded, status = SAPHYR_EVENT;
    if (start(&trees, &text, keep_tags) || saphyr_new(text.at, text.len, keep_tags, &parser)) {
        fail("no parser");
        return;
    }
    while ((loaded = load_next(&trees, &text, &fault)) == SAPHYR_LOADED) {
        while ((status = saphyr_next(&parser, &event)) == SAPHYR_EVENT && event.kind != SAPHYR_DOCUMENT_START) {
        }
        check_node(&trees, saphyr_root(&trees, 0), &parser);
        if (fault.kind != SAPHYR_NOTHING || saphyr_root(&trees, 1) != SAPHYR_NO_NODE) {
            fail("a document is loaded with another");
        }
    }
    while ((status = saphyr_next(&parser, &event)) == SAPHYR_EVENT && event.kind != SAPHYR_DOCUMENT_START) {
    }
    if (loaded == SAPHYR_END && status != SAPHYR_END) {
        fail("a document is left out");
    }
    while (status == SAPHYR_EVENT) {
        status = saphyr_next(&parser, &event);
    }
    if (loaded != status || (loaded < 0 && !is_same(&fault, &event))) {
        fail("a refusal of a document is told wrongly");
    }
    if (saphyr_root(&trees, 0) != SAPHYR_NO_NODE || saphyr_load_next(&trees, 1, 1, &fault) != SAPHYR_END) {
        fail("there is a document behind the last");
    }
    saphyr_free(&trees);
    saphyr_free(&parser);
}

/* The next event of a text that comes so. */
static int32_t next_of(saphyr_parser *parser, struct text *text, saphyr_event *event) {
    int32_t status = saphyr_next(parser, event);
    while (status == SAPHYR_MORE && text->how != WHOLE && add_piece(parser, text) == SAPHYR_OK) {
        status = saphyr_next(parser, event);
    }
    return status;
}

/* Goes behind the document in which two parsers are. Whether both do so by the same events. */
static bool leave_document(saphyr_parser *trees, struct text *text, saphyr_parser *whole) {
    saphyr_event event = {0}, wanted = {0};
    do {
        if (next_of(trees, text, &event) != saphyr_next(whole, &wanted) || !is_same(&event, &wanted) ||
            !is_same_place(event.end, wanted.end)) {
            fail("behind a document that is too large comes something else");
            return false;
        }
    } while (event.kind != SAPHYR_DOCUMENT_END && event.kind != SAPHYR_NOTHING);
    return event.kind == SAPHYR_DOCUMENT_END;
}

/* Within the same limits the documents of a text in pieces are those of the whole text, one by one. */
static void check_limits(struct text text, bool keep_tags) {
    saphyr_parser trees = {0}, whole = {0};
    saphyr_event event = {0}, wanted = {0};
    size_t most = draw(9), depth = draw(4);
    int32_t status;
    if (start(&trees, &text, keep_tags) || saphyr_new(text.at, text.len, keep_tags, &whole)) {
        fail("no parser");
        return;
    }
    do {
        status = load_within(&trees, &text, most, depth, &event);
        if (status != saphyr_load_next(&whole, most, depth, &wanted) || !is_same(&event, &wanted) ||
            saphyr_expanded(&trees, 0) != saphyr_expanded(&whole, 0)) {
            fail("within limits a document of pieces is another");
            break;
        }
    } while (status == SAPHYR_LOADED || (status == SAPHYR_TOO_LARGE && leave_document(&trees, &text, &whole)));
    saphyr_free(&trees);
    saphyr_free(&whole);
}

/* Of a text that is given up half way, or a clone there, nothing is left. */
static void give_up(struct text text) {
    saphyr_parser trees = {0}, copy = {0};
    saphyr_event event = {0};
    long before = blocks;
    int32_t status = start(&trees, &text, false);
    for (uint32_t left = draw(20); left > 0 && status >= 0; left--) {
        status = saphyr_load_next(draw(9) ? &trees : &copy, draw(9) ? LARGE : draw(4), LARGE, &event);
        if (draw(5) == 0) {
            saphyr_clone(&trees, &copy);
        }
        if (status == SAPHYR_MORE) {
            add_piece(&trees, &text);
        }
    }
    saphyr_free(&trees);
    saphyr_free(&copy);
    if (blocks != before) {
        fail("a text that is given up is not freed");
    }
}

/* How many documents a text has, from the first, that are loaded without a fault, and how many nodes the first few of
   them. */
static size_t loaded_of(struct text text, uint64_t *sizes) {
    saphyr_parser trees = {0};
    saphyr_event event = {0};
    size_t count = 0;
    if (start(&trees, &text, false) == SAPHYR_OK) {
        while (load_next(&trees, &text, &event) == SAPHYR_LOADED) {
            sizes[count < DOCUMENTS ? count : DOCUMENTS] = saphyr_expanded(&trees, 0);
            count++;
        }
    }
    saphyr_free(&trees);
    return count;
}

/* Whether what is loaded where memory ran out is all of a document: of that one, if it ran out before it, or of the
   next one, if at its end. Inside it none is loaded: it would lack what could not be taken. */
static bool is_whole(saphyr_parser *trees, struct text *text, size_t count, const uint64_t *sizes) {
    saphyr_event event = {0};
    if (load_next(trees, text, &event) != SAPHYR_LOADED || count + 1 >= DOCUMENTS) {
        return true;
    }
    uint64_t size = saphyr_expanded(trees, 0);
    return size == sizes[count] || size == sizes[count + 1];
}

/* Loads a text with each request for memory refused in turn, all at once or document by document. Then there are no
   trees, and nothing is left. Of pieces, a request may be one that the parser can do without: all documents are
   there. */
static void refuse_each(struct text text, bool each) {
    uint64_t sizes[DOCUMENTS + 1] = {0};
    size_t all = each ? loaded_of(text, sizes) : 0;
    for (long number = 0; failed == 0; number++) {
        saphyr_parser trees = {0};
        saphyr_event event = {0};
        long before = blocks;
        size_t count = 0;
        was_refused = false;
        granted = number;
        int32_t status = start(&trees, &text, false);
        if (status == SAPHYR_OK) {
            if (each) {
                while ((status = load_next(&trees, &text, &event)) == SAPHYR_LOADED) {
                    count++;
                }
            } else {
                status = saphyr_load(&trees, LARGE, LARGE, &event);
            }
            if (status != SAPHYR_OK && saphyr_root(&trees, 0) != SAPHYR_NO_NODE) {
                fail("there are trees without memory");
            }
        }
        granted = -1;
        if (each && status == SAPHYR_NO_MEMORY && !is_whole(&trees, &text, count, sizes)) {
            fail("a document is loaded without what memory was refused for");
        }
        saphyr_free(&trees);
        if (was_refused && status != SAPHYR_NO_MEMORY && (text.how == WHOLE || count != all)) {
            fail("a want of memory is not told");
        }
        if (blocks != before) {
            fail("memory is not freed");
        }
        if (!was_refused) {
            return;
        }
        refused++;
    }
}

static void expect(int64_t found, int64_t wanted, const char *what) {
    if (found != wanted) {
        printf("%s: %lld, and not %lld\n", what, (long long)found, (long long)wanted);
        failed = 1;
    }
}

static int32_t load(const char *text, size_t most, size_t depth, saphyr_parser *trees, saphyr_event *event) {
    expect(saphyr_new((const uint8_t *)text, strlen(text), false, trees), SAPHYR_OK, "a text");
    return saphyr_load(trees, most, depth, event);
}

/* Nothing is found without trees. */
static void expect_no_trees(saphyr_parser *trees, int32_t status) {
    saphyr_event event = {0};
    event.kind = SAPHYR_SCALAR;
    expect(saphyr_describe(trees, 0, &event), status, "a node of no trees");
    expect(event.kind, SAPHYR_NOTHING, "an event of no node");
    expect(saphyr_root(trees, 0) == SAPHYR_NO_NODE, true, "a root of no trees");
    expect((int64_t)saphyr_expanded(trees, 0), 0, "an expanded document of no trees");
    expect((int64_t)saphyr_count(trees, 0), 0, "parts of no node");
    expect(saphyr_item(trees, 0, 0) == SAPHYR_NO_NODE, true, "an item of no node");
    expect(saphyr_key(trees, 0, 0) == SAPHYR_NO_NODE, true, "a key of no node");
    expect(saphyr_value(trees, SAPHYR_NO_NODE, 0) == SAPHYR_NO_NODE, true, "a value of no node");
    expect(saphyr_get(trees, 0, "a", 1) == SAPHYR_NO_NODE, true, "a look-up in no node");
    expect(saphyr_get(trees, 0, NULL, 0) == SAPHYR_NO_NODE, true, "a look-up of nothing in no node");
    expect(saphyr_follow(trees, 0) == SAPHYR_NO_NODE, true, "a node that is followed in no trees");
    expect(saphyr_anchored(trees, 1) == SAPHYR_NO_NODE, true, "the node of an anchor in no trees");
}

static void misuse(void) {
    saphyr_parser trees = {0}, copy = {0};
    saphyr_event event = {0};
    expect(saphyr_load(&trees, 1, 1, &event), SAPHYR_NO_PARSER, "loading without a parser");
    expect_no_trees(&trees, SAPHYR_NO_PARSER);
    expect(load("[a, b]", 3, 1, &trees, &event), SAPHYR_OK, "three nodes");
    expect(saphyr_load(&trees, 3, 1, &event), SAPHYR_LATE, "loading twice");
    expect_no_trees(&trees, SAPHYR_END);
    expect(load("[a, b]", 2, 1, &trees, &event), SAPHYR_TOO_LARGE, "a node too many");
    expect((int64_t)event.start.col, 4, "where a node is too many");
    expect_no_trees(&trees, SAPHYR_END);
    expect(load("[[a]]", 3, 1, &trees, &event), SAPHYR_TOO_LARGE, "a collection too deep");
    expect(load("[a", 9, 9, &trees, &event), SAPHYR_REFUSED, "a text that is refused");
    expect(event.value.len > 0, true, "why a text is refused");
    expect(load("a: &x [b]\nc: *x\n", 9, 9, &trees, &event), SAPHYR_OK, "an alias");
    expect((int64_t)saphyr_expanded(&trees, 0), 7, "a document once it is expanded");
    expect(saphyr_get(&trees, saphyr_root(&trees, 0), "\xff", 1) == SAPHYR_NO_NODE, true, "a key that is not UTF-8");
    expect(saphyr_clone(&trees, &copy), SAPHYR_OK, "a clone");
    expect_no_trees(&copy, SAPHYR_END);
    expect(saphyr_get(&trees, saphyr_get(&trees, 7, "z", 1), "z", 1) == SAPHYR_NO_NODE, true, "nested look-ups");
    expect(saphyr_new((const uint8_t *)"a", 1, false, &trees), SAPHYR_OK, "a text after trees");
    expect_no_trees(&trees, SAPHYR_END);
    expect(saphyr_next(&trees, &event), SAPHYR_EVENT, "an event");
    expect(saphyr_load(&trees, 9, 9, &event), SAPHYR_LATE, "loading after an event");
    expect(saphyr_next(&trees, &event), SAPHYR_EVENT, "an event after that");
    expect(saphyr_new_pieces(false, 0, 0, &trees), SAPHYR_OK, "pieces");
    expect(saphyr_load(&trees, 9, 9, &event), SAPHYR_LATE, "loading pieces");
    saphyr_free(&trees);
    saphyr_free(&copy);
}

static void misuse_each(void) {
    const char *text = "a\n--- [b, c]\n--- d\n";
    saphyr_parser trees = {0};
    saphyr_event event = {0};
    expect(saphyr_load_next(&trees, 1, 1, &event), SAPHYR_NO_PARSER, "the next document without a parser");
    expect(saphyr_new((const uint8_t *)text, strlen(text), false, &trees), SAPHYR_OK, "documents");
    expect(saphyr_load_next(&trees, 1, 0, &event), SAPHYR_LOADED, "the first document");
    expect(saphyr_load(&trees, 9, 9, &event), SAPHYR_LATE, "all documents behind the first");
    expect_no_trees(&trees, SAPHYR_END);
    expect(saphyr_load_next(&trees, 2, 1, &event), SAPHYR_TOO_LARGE, "a second document that is too large");
    expect((int64_t)event.start.line, 2, "the line of the node that is too many");
    expect_no_trees(&trees, SAPHYR_END);
    expect(saphyr_load_next(&trees, 9, 9, &event), SAPHYR_LATE, "the next document inside another");
    expect(saphyr_next(&trees, &event), SAPHYR_EVENT, "an event of the document");
    expect(event.kind, SAPHYR_SEQUENCE_END, "the end of a sequence");
    expect(saphyr_next(&trees, &event), SAPHYR_EVENT, "the document's last event");
    expect(saphyr_load_next(&trees, 1, 0, &event), SAPHYR_LOADED, "a document behind events");
    expect(saphyr_describe(&trees, saphyr_root(&trees, 0), &event), SAPHYR_EVENT, "its root");
    expect((int64_t)event.start.line, 3, "the place of its root");
    expect(saphyr_load_next(&trees, 9, 9, &event), SAPHYR_END, "no document more");
    expect_no_trees(&trees, SAPHYR_END);
    expect(saphyr_next(&trees, &event), SAPHYR_END, "no event more");
    saphyr_free(&trees);
}

static void add(saphyr_parser *parser, const char *piece) {
    expect(saphyr_add(parser, (const uint8_t *)piece, strlen(piece)), SAPHYR_OK, "a piece");
}

static void expect_next(saphyr_parser *trees, size_t nodes, int32_t status, const char *what) {
    saphyr_event event = {0};
    expect(saphyr_load_next(trees, nodes, 9, &event), status, what);
    if (status != SAPHYR_LOADED) {
        expect(saphyr_root(trees, 0) == SAPHYR_NO_NODE, true, what);
    }
}

static void expect_item(saphyr_parser *trees, size_t at, const char *text) {
    saphyr_event event = {0};
    saphyr_describe(trees, saphyr_item(trees, saphyr_root(trees, 0), at), &event);
    expect(event.value.len == strlen(text) && !memcmp(event.value.at, text, event.value.len), true, text);
}

/* What other calls do to a document of which a part came. */
static void misuse_pieces(void) {
    saphyr_parser trees = {0}, copy = {0};
    saphyr_event event = {0};
    expect(saphyr_new_pieces(false, 0, 40, &trees), SAPHYR_OK, "pieces");
    expect_next(&trees, 9, SAPHYR_MORE, "a document of no bytes");
    add(&trees, "- a\n- b\n- ");
    expect(saphyr_load_next(&trees, 3, 9, &event), SAPHYR_MORE, "a document of two items");
    expect((int64_t)(event.start.line * 10 + event.start.col), 23, "where the last event that came ends");
    expect(saphyr_next(&trees, &event), SAPHYR_MORE, "no event in a document");
    expect(saphyr_peek(&trees, &event), SAPHYR_MORE, "a peek into a document");
    expect(saphyr_keep_tags(&trees, false), SAPHYR_OK, "keeping no tags");
    expect(saphyr_load(&trees, 9, 9, &event), SAPHYR_LATE, "all documents of pieces");
    expect(saphyr_clone(&trees, &copy), SAPHYR_OK, "a clone inside a document");
    add(&trees, "c\n---\n- d\n");
    expect(saphyr_peek(&trees, &event), SAPHYR_EVENT, "a peek at the third item");
    expect_next(&trees, 1, SAPHYR_LOADED, "a document within the limits of the call that began it");
    expect((int64_t)saphyr_count(&trees, saphyr_root(&trees, 0)), 3, "its items");
    expect_item(&trees, 0, "a");
    expect_item(&trees, 2, "c");
    add(&copy, "x\n- y\n");
    expect_next(&copy, 9, SAPHYR_LATE, "the rest of a document in a clone");
    expect_item(&trees, 1, "b");
    expect_next(&trees, 9, SAPHYR_MORE, "a second document");
    expect(saphyr_root(&trees, 0) == SAPHYR_NO_NODE, true, "the first document is gone");
    saphyr_free(&trees);
    saphyr_free(&copy);
}

/* What is left of a document that lacks an event, is too large, or waits too long. */
static void misuse_limits(void) {
    saphyr_parser trees = {0};
    saphyr_event event = {0};
    expect(saphyr_new_pieces(false, 0, 40, &trees), SAPHYR_OK, "pieces with a limit");
    add(&trees, "- d\n");
    expect_next(&trees, 9, SAPHYR_MORE, "a document of one item");
    add(&trees, "- e\n- f\n");
    expect(saphyr_next(&trees, &event), SAPHYR_EVENT, "an event of the document");
    expect_next(&trees, 9, SAPHYR_LATE, "a document that lacks an event");
    expect_next(&trees, 9, SAPHYR_LATE, "a document that lacks an event, again");
    add(&trees, "---\n[g, h, i]\n---\nj\n");
    while (saphyr_next(&trees, &event) == SAPHYR_EVENT && event.kind != SAPHYR_DOCUMENT_END) {
    }
    expect_next(&trees, 3, SAPHYR_TOO_LARGE, "a document that is too large");
    expect_next(&trees, 9, SAPHYR_LATE, "the rest of a document that is too large");
    while (saphyr_next(&trees, &event) == SAPHYR_EVENT && event.kind != SAPHYR_DOCUMENT_END) {
    }
    add(&trees, "--- |\n aaaaaaaaaaaaaaaaaaaaaaaaaaaaaa\n bbbbbbbbbbbbbbbbbbbbbbbbbbbbbbbbbbb\n ccccccccccccccccccc\n");
    expect_next(&trees, 9, SAPHYR_LOADED, "a document within the limit");
    expect_next(&trees, 9, SAPHYR_TOO_MUCH, "a document that waits too long");
    check_waiting(&trees, SAPHYR_TOO_MUCH);
    expect(saphyr_next(&trees, &event), SAPHYR_TOO_MUCH, "an event that waits too long");
    expect(saphyr_add(&trees, NULL, 0), SAPHYR_OK, "the end");
    expect_next(&trees, 9, SAPHYR_LOADED, "a document that waited too long");
    expect_next(&trees, 9, SAPHYR_END, "no document more");
    expect_next(&trees, 9, SAPHYR_END, "no document more, again");
    saphyr_free(&trees);
}

/* A document with a fault, and one that began elsewhere. */
static void misuse_others(void) {
    saphyr_parser trees = {0};
    saphyr_event event = {0};
    expect(saphyr_new_pieces(false, 0, 0, &trees), SAPHYR_OK, "other pieces");
    add(&trees, "a: [b, c]\nd: ]\n");
    expect_next(&trees, 9, SAPHYR_REFUSED, "a document with a fault");
    expect_next(&trees, 9, SAPHYR_END, "no document behind a fault");
    expect(saphyr_new_pieces(false, 0, 0, &trees), SAPHYR_OK, "pieces of two documents");
    add(&trees, "a\n---\nb\n");
    expect(saphyr_next(&trees, &event), SAPHYR_EVENT, "the start of the stream");
    expect_next(&trees, 9, SAPHYR_LOADED, "a document behind the start of the stream");
    expect(saphyr_next(&trees, &event), SAPHYR_EVENT, "the start of a document");
    expect_next(&trees, 9, SAPHYR_MORE, "a document that began elsewhere");
    expect(saphyr_add(&trees, NULL, 0), SAPHYR_OK, "the end of two documents");
    expect_next(&trees, 9, SAPHYR_LATE, "a document that began elsewhere, once more came");
    saphyr_free(&trees);
}

/* Looks up a path of keys, each by one letter. */
static saphyr_node lead(saphyr_parser *trees, const char *keys) {
    saphyr_node node = saphyr_root(trees, 0);
    for (; *keys; keys++) {
        node = saphyr_get(trees, node, keys, 1);
    }
    return node;
}

/* Look-ups by name follow aliases, walks do not: also inside the node that is named. */
static void follow(void) {
    saphyr_parser trees = {0};
    saphyr_event event = {0};
    expect(load("&a [*a]", 9, 9, &trees, &event), SAPHYR_OK, "a sequence in itself");
    saphyr_node root = saphyr_root(&trees, 0), item = saphyr_item(&trees, root, 0);
    expect(saphyr_follow(&trees, item) == root, true, "an alias in its node");
    expect(saphyr_follow(&trees, root) == root, true, "a node with an anchor");
    expect(saphyr_item(&trees, item, 0) == SAPHYR_NO_NODE, true, "an item of an alias");
    expect(saphyr_expanded(&trees, 0) == UINT64_MAX, true, "nodes without end");
    expect(saphyr_follow(&trees, SAPHYR_NO_NODE) == SAPHYR_NO_NODE, true, "the node of no node");
    expect(load("a: &a {b: *a, &c d : 1, *c : 2}\nd: *a\n", 99, 9, &trees, &event), SAPHYR_OK, "a mapping in itself");
    expect(lead(&trees, "dbbd") == lead(&trees, "ad"), true, "a key through aliases");
    expect(saphyr_describe(&trees, lead(&trees, "dd"), &event), SAPHYR_EVENT, "the first of equal keys");
    expect(event.value.len == 1 && *event.value.at == '1', true, "its value");
    expect(load("a: &a x\n*a : 1\nb: *a\n", 9, 9, &trees, &event), SAPHYR_OK, "an alias as a key");
    expect(lead(&trees, "x") == saphyr_value(&trees, saphyr_root(&trees, 0), 1), true, "its value by its node's text");
    expect(lead(&trees, "bx") == SAPHYR_NO_NODE, true, "a key in an alias of a scalar");
    saphyr_free(&trees);
}

/* Each anchor is of a mapping with aliases of the last two, so a walk through aliases would have no end in sight. */
static void follow_bomb(void) {
    char text[4096];
    size_t len = (size_t)sprintf(text, "- &a0 {a: x}\n- &a1 {a: *a0}\n");
    for (int at = 2; at < 60; at++) {
        len += (size_t)sprintf(text + len, "- &a%d {a: *a%d, b: [*a%d, *a%d]}\n", at, at - 1, at - 2, at - 2);
    }
    saphyr_parser trees = {0};
    saphyr_event event = {0};
    expect(load(text, LARGE, 9, &trees, &event), SAPHYR_OK, "a bomb");
    saphyr_node node = saphyr_item(&trees, saphyr_root(&trees, 0), 59);
    for (int at = 0; at < 60; at++) {
        node = saphyr_get(&trees, node, "a", 1);
    }
    saphyr_describe(&trees, node, &event);
    expect(event.value.len == 1 && *event.value.at == 'x', true, "the innermost value of a bomb");
    saphyr_free(&trees);
}

/* Follows many aliases, each of an anchor of its own. */
static void follow_many(void) {
    enum { MANY = 16000, LINE = 20 };
    char *text = malloc((size_t)MANY * LINE * 2);
    if (!text) {
        fail("no memory");
        return;
    }
    size_t len = 0;
    for (int at = 0; at < MANY; at++) {
        len += (size_t)sprintf(text + len, "- &a%d %d\n", at, at);
    }
    for (int at = 0; at < MANY; at++) {
        len += (size_t)sprintf(text + len, "- *a%d\n", MANY - 1 - at);
    }
    saphyr_parser trees = {0};
    saphyr_event event = {0};
    expect(load(text, LARGE, 1, &trees, &event), SAPHYR_OK, "many aliases");
    saphyr_node root = saphyr_root(&trees, 0);
    int wrong = 0;
    for (size_t at = 0; at < MANY; at++) {
        saphyr_node item = saphyr_item(&trees, root, MANY + at);
        wrong += saphyr_follow(&trees, item) != saphyr_item(&trees, root, MANY - 1 - at);
    }
    expect(wrong, 0, "aliases that lead elsewhere");
    saphyr_free(&trees);
    free(text);
}

/* Compares a text's trees with its events in each way. */
static void check_all(const uint8_t *at, size_t len, bool keep_tags, long rounds) {
    struct text text = {at, len, 0, WHOLE, 0}, cut = {at, len, 0, CUT, 0};
    check(at, len, keep_tags);
    for (; text.how < DRAWN; text.how++) {
        check_each(text, keep_tags);
    }
    for (long round = 0; round < rounds; round++) {
        check_each(text, keep_tags);
        check_limits(text, keep_tags);
        give_up(text);
    }
    if (len > SHORT) {
        return;
    }
    for (cut.cut = 1; cut.cut < len; cut.cut++) {
        check_each(cut, keep_tags);
    }
    refuse_each(text, true);
    text.how = LINES;
    refuse_each(text, true);
    text.how = WHOLE;
    refuse_each(text, true);
    refuse_each(text, false);
}

int main(int argc, char **argv) {
    int keeps_tags;
    size_t len;
    long rounds = argc > 1 ? atol(argv[1]) : 1;
    misuse();
    misuse_each();
    misuse_pieces();
    misuse_limits();
    misuse_others();
    follow();
    follow_bomb();
    follow_many();
    while (scanf("%d %zu", &keeps_tags, &len) == 2 && getchar() == '\n') {
        uint8_t *text = malloc(len + 1);
        if (text == NULL || fread(text, 1, len, stdin) != len) {
            return 2;
        }
        check_all(text, len, keeps_tags, rounds);
        free(text);
    }
    printf("%zu nodes, %zu requests refused\n", nodes, refused);
    return failed;
}
