/*
 * Calls of the C face with empty handles, texts that are not UTF-8, handles in use, and events with old fields; and
 * whether texts are YAML 1.2.2. Prints what isn't answered as the header says. Run under valgrind, it also shows what
 * isn't freed.
 */
#include "saphyr_parser.h"

#include <stdio.h>
#include <stdlib.h>
#include <string.h>

static int failed = 0;

static void expect(int32_t found, int32_t wanted, const char *what) {
    if (found != wanted) {
        printf("%s: %d, and not %d\n", what, (int)found, (int)wanted);
        failed = 1;
    }
}

static int32_t make(const char *text, saphyr_parser *parser) {
    return saphyr_new((const uint8_t *)text, strlen(text), false, parser);
}

/* Each call of an empty handle says that there is no parser, and empties the event. */
static void expect_empty(saphyr_parser *parser, const char *what) {
    saphyr_event event = {0};
    event.kind = SAPHYR_SCALAR;
    event.anchor = 7;
    saphyr_parser copy = {0};
    expect(parser->at == NULL, true, what);
    expect(saphyr_next(parser, &event), SAPHYR_NO_PARSER, what);
    expect(event.kind, SAPHYR_NOTHING, what);
    expect((int32_t)event.anchor, 0, what);
    expect(saphyr_peek(parser, &event), SAPHYR_NO_PARSER, what);
    expect(saphyr_keep_tags(parser, true), SAPHYR_NO_PARSER, what);
    expect(saphyr_add(parser, (const uint8_t *)"a", 1), SAPHYR_NO_PARSER, what);
    expect(saphyr_add(parser, (const uint8_t *)"", 0), SAPHYR_NO_PARSER, what);
    expect(saphyr_add_utf8(parser, (const uint8_t *)"a", 1), SAPHYR_NO_PARSER, what);
    expect(saphyr_clone(parser, &copy), SAPHYR_NO_PARSER, what);
    expect(copy.at == NULL, true, what);
}

static void frees_twice(void) {
    saphyr_parser parser = {0};
    expect_empty(&parser, "a zeroed handle");
    saphyr_free(&parser);
    expect_empty(&parser, "a zeroed handle that was freed");
    expect(make("a", &parser), SAPHYR_OK, "a text");
    saphyr_free(&parser);
    saphyr_free(&parser);
    expect_empty(&parser, "a handle that was freed twice");
}

static void refuses_bytes(void) {
    const char *texts[] = {"\xff",         "a\x80",        "\xc3",         "\xc0\x80",     "\xe0\x80\x80",
                           "\xed\xa0\x80", "\xf0\x9f\x98", "\xf4\x90\x80\x80", "\xf8\x88\x80\x80\x80", "a: \xe2\x82"};
    for (size_t at = 0; at < sizeof texts / sizeof *texts; at++) {
        saphyr_parser parser = {0};
        expect(make(texts[at], &parser), SAPHYR_NOT_UTF8, "bytes that are not UTF-8");
        expect_empty(&parser, "a handle for bytes that are not UTF-8");
        expect(make("[a]", &parser), SAPHYR_OK, "a text");
        expect(make(texts[at], &parser), SAPHYR_NOT_UTF8, "bytes over a live parser");
        expect_empty(&parser, "a handle that had a parser before such bytes");
    }
}

static void expect_valid_up_to(const char *bytes, size_t len, size_t wanted) {
    expect((int32_t)saphyr_valid_up_to((const uint8_t *)bytes, len), (int32_t)wanted, "how many bytes are UTF-8");
}

static void gives_the_first_bad_byte(void) {
    expect_valid_up_to("", 0, 0);
    expect_valid_up_to("a: \xc3\xa9\n", 6, 6);
    expect_valid_up_to("\xef\xbb\xbf" "a", 4, 4);
    expect_valid_up_to("\xff", 1, 0);
    expect_valid_up_to("a\x80", 2, 1);
    expect_valid_up_to("\xc3\xa9\xc3", 3, 2);
    expect_valid_up_to("a: \xe2\x82", 5, 3);
    expect_valid_up_to("\xed\xa0\x80", 3, 0);
}

static void expect_encoding(const char *bytes, size_t len, int32_t wanted) {
    saphyr_parser parser = {0};
    expect(saphyr_new((const uint8_t *)bytes, len, false, &parser), wanted, "bytes in an encoding");
    saphyr_free(&parser);
}

/* UTF-16 is told by its byte order mark. That of UTF-32 begins with the same two bytes. */
static void knows_utf16(void) {
    expect_encoding("\xff\xfe" "a\0", 4, SAPHYR_UTF16);
    expect_encoding("\xfe\xff\0a", 4, SAPHYR_UTF16);
    expect_encoding("\xff\xfe", 2, SAPHYR_UTF16);
    expect_encoding("\xff\xfe\0", 3, SAPHYR_UTF16);
    expect_encoding("\xff\xfe\0\0a\0\0\0", 8, SAPHYR_NOT_UTF8);
    expect_encoding("\0\0\xfe\xff\0\0\0a", 8, SAPHYR_NOT_UTF8);
    expect_encoding("\xff", 1, SAPHYR_NOT_UTF8);
    expect_encoding("a\xff\xfe", 3, SAPHYR_NOT_UTF8);
    expect_encoding("a\0", 2, SAPHYR_OK);
}

/* A parser over a live one, at each place of that. */
static void replaces(void) {
    for (int taken = 0; taken < 9; taken++) {
        saphyr_parser parser = {0}, copy = {0};
        saphyr_event event = {0};
        expect(make("&a !t [b, 'c', *a]", &parser), SAPHYR_OK, "a text");
        for (int at = 0; at < taken; at++) {
            expect(saphyr_next(&parser, &event), at < 9 ? SAPHYR_EVENT : SAPHYR_END, "an event");
        }
        expect(saphyr_peek(&parser, &event), SAPHYR_EVENT, "a peeked event");
        expect(make("x: y", &copy), SAPHYR_OK, "a text");
        expect(saphyr_clone(&parser, &copy), SAPHYR_OK, "a clone over a live parser");
        expect(make("b: c", &parser), SAPHYR_OK, "a text over a live parser");
        int events = 0;
        while (saphyr_next(&parser, &event) == SAPHYR_EVENT) {
            events++;
        }
        expect(events, 8, "events of the second text");
        expect(saphyr_next(&parser, &event), SAPHYR_END, "behind the end");
        expect(event.kind, SAPHYR_NOTHING, "behind the end");
        const uint8_t *known = (const uint8_t *)"[b]";
        expect(saphyr_new_utf8(known, 3, false, &parser), SAPHYR_OK, "a text in UTF-8 over a live parser");
        for (events = 0; saphyr_next(&parser, &event) == SAPHYR_EVENT; events++) {
        }
        expect(events, 7, "events of the text in UTF-8");
        for (events = 0; saphyr_next(&copy, &event) == SAPHYR_EVENT; events++) {
        }
        expect(events, 9 - taken, "events of the clone, whose parser is gone");
        saphyr_free(&parser);
        saphyr_free(&copy);
    }
}

/* Whether all fields are 0 and NULL but the kind and the places. */
static bool is_bare(const saphyr_event *event) {
    return !event->style && !event->is_explicit && !event->has_tag && !event->anchor && !event->value.at &&
           !event->value.len && !event->tag_handle.at && !event->tag_handle.len && !event->tag_suffix.at &&
           !event->tag_suffix.len;
}

static void writes_each_field(void) {
    saphyr_parser parser = {0};
    saphyr_event event = {0};
    expect(make("--- &a !!str >\n b\n", &parser), SAPHYR_OK, "a text");
    while (saphyr_next(&parser, &event) == SAPHYR_EVENT) {
        bool is_scalar = event.kind == SAPHYR_SCALAR, is_start = event.kind == SAPHYR_DOCUMENT_START;
        expect(is_bare(&event), !is_scalar && !is_start, "an event without old fields");
        expect(event.style, is_scalar ? SAPHYR_FOLDED : SAPHYR_PLAIN, "the style");
        expect(event.is_explicit, is_start, "whether a document is explicit");
        expect((int32_t)event.anchor, is_scalar, "the anchor");
        expect(event.has_tag, is_scalar, "whether there is a tag");
        expect(event.start.line >= 1 && event.end.line >= event.start.line, true, "the places");
    }
    expect(event.kind == SAPHYR_NOTHING && is_bare(&event), true, "no event without old fields");
    expect(event.start.line == 0 && event.end.line == 0, true, "no event without old places");
    saphyr_free(&parser);
}

static void refuses_once(void) {
    static const char said[] = "while parsing a flow sequence, expected ',' or ']'";
    saphyr_parser parser = {0};
    saphyr_event event = {0};
    expect(make("&x [a", &parser), SAPHYR_OK, "a text");
    while (saphyr_next(&parser, &event) == SAPHYR_EVENT && event.kind != SAPHYR_SCALAR) {
    }
    for (int call = 0; call < 3; call++) {
        int32_t status = call < 2 ? saphyr_peek(&parser, &event) : saphyr_next(&parser, &event);
        expect(status, SAPHYR_REFUSED, "a fault");
        expect(event.kind, SAPHYR_NOTHING, "the kind of a fault");
        expect(event.value.len == strlen(said) && !memcmp(event.value.at, said, event.value.len), true, "its text");
        expect(event.start.index == 5 && event.start.line == 2 && event.start.col == 0, true, "its place");
        expect(memcmp(&event.start, &event.end, sizeof event.start), 0, "both places of a fault");
    }
    expect(saphyr_peek(&parser, &event), SAPHYR_END, "a peek behind a fault");
    expect(saphyr_next(&parser, &event), SAPHYR_END, "behind a fault");
    expect(event.kind == SAPHYR_NOTHING && is_bare(&event), true, "nothing behind a fault");
    saphyr_free(&parser);
}

/* The text of a live parser is read where it is, and may be freed once the parser is. */
static void reads_in_place(void) {
    char *text = strdup("[a, b]");
    saphyr_parser parser = {0};
    saphyr_event event = {0};
    expect(make(text, &parser), SAPHYR_OK, "a text");
    expect(saphyr_next(&parser, &event), SAPHYR_EVENT, "an event");
    saphyr_free(&parser);
    free(text);
    expect_empty(&parser, "a handle whose text is gone");
}

/* The prefixes of tags hold for the second document where they are kept from the end of the first on. */
static void keeps_tags(void) {
    static const char text[] = "%TAG !e! tag:e,2000:\n--- !e!a b\n--- !e!c d\n";
    for (int kept = 0; kept < 3; kept++) {
        saphyr_parser parser = {0};
        saphyr_event event = {0};
        int32_t status = saphyr_new((const uint8_t *)text, strlen(text), kept == 1, &parser);
        expect(status, SAPHYR_OK, "a text with a directive");
        int scalars = 0;
        while ((status = saphyr_next(&parser, &event)) == SAPHYR_EVENT) {
            scalars += event.kind == SAPHYR_SCALAR;
            if (event.kind == SAPHYR_SCALAR && kept == 2) {
                expect(saphyr_keep_tags(&parser, true), SAPHYR_OK, "keeping tags");
            }
        }
        expect(status, kept ? SAPHYR_END : SAPHYR_REFUSED, "a handle in the second document");
        expect(scalars, kept ? 2 : 1, "scalars with that handle");
        saphyr_free(&parser);
    }
}

static int32_t add(saphyr_parser *parser, const char *bytes) {
    return saphyr_add(parser, (const uint8_t *)bytes, strlen(bytes));
}

/* Takes all events that are there. How many documents ended, and the status behind them. */
static int documents(saphyr_parser *parser, int32_t *status) {
    saphyr_event event = {0};
    int ended = 0;
    while ((*status = saphyr_next(parser, &event)) == SAPHYR_EVENT) {
        ended += event.kind == SAPHYR_DOCUMENT_END;
    }
    bool is_refused = *status == SAPHYR_REFUSED || *status == SAPHYR_TOO_LONG;
    expect(event.kind == SAPHYR_NOTHING && is_bare(&event), !is_refused, "no event without old fields");
    return ended;
}

/* A document's end comes once the line of a marker behind it has come. */
static void comes_at_once(void) {
    static const struct {
        const char *piece;
        int ended;
    } pieces[] = {{"--- a\n", 0}, {"b\n", 0},   {"---", 0},          {" ", 1},
                  {"d\n...\n", 1}, {"e\n", 0},   {"...", 0},          {"\n", 1},
                  {"--- |\n f", 0}, {"\n--- 'g'\n", 1}, {"--- {h: i}\n", 1}, {"---\n", 1},
                  {"...\n", 1},    {"k\n", 0},   {"", 1}};
    saphyr_parser parser = {0};
    int32_t status;
    expect(saphyr_new_pieces(false, 0, 0, &parser), SAPHYR_OK, "a text in pieces");
    for (size_t at = 0; at < sizeof pieces / sizeof *pieces; at++) {
        bool is_last = at + 1 == sizeof pieces / sizeof *pieces;
        expect(add(&parser, pieces[at].piece), SAPHYR_OK, pieces[at].piece);
        expect(documents(&parser, &status), pieces[at].ended, pieces[at].piece);
        expect(status, is_last ? SAPHYR_END : SAPHYR_MORE, pieces[at].piece);
    }
    saphyr_free(&parser);
}

/* Bytes that are not UTF-8 add nothing, also behind the beginning of a character. */
static void refuses_pieces(void) {
    static const struct {
        const char *piece;
        int32_t status;
    } pieces[] = {{"\xff\xfe" "a", SAPHYR_UTF16},
                  {"\xfe", SAPHYR_NOT_UTF8},
                  {"--- \xe2", SAPHYR_OK},
                  {"\xfe\xff", SAPHYR_NOT_UTF8},
                  {"a", SAPHYR_NOT_UTF8},
                  {"", SAPHYR_NOT_UTF8},
                  {"\x82", SAPHYR_OK},
                  {"\xe2", SAPHYR_NOT_UTF8},
                  {"\xac\n", SAPHYR_OK},
                  {"\xff\xfe", SAPHYR_NOT_UTF8},
                  {"\xf0\x9f\x98", SAPHYR_OK},
                  {"", SAPHYR_NOT_UTF8},
                  {"\x80", SAPHYR_OK},
                  {"", SAPHYR_OK},
                  {"a", SAPHYR_WHOLE},
                  {"\xff", SAPHYR_WHOLE},
                  {"", SAPHYR_WHOLE}};
    saphyr_parser parser = {0};
    saphyr_event event = {0};
    int32_t status;
    expect(saphyr_new_pieces(false, 0, 0, &parser), SAPHYR_OK, "a text in pieces");
    for (size_t at = 0; at < sizeof pieces / sizeof *pieces; at++) {
        expect(add(&parser, pieces[at].piece), pieces[at].status, pieces[at].piece);
    }
    while ((status = saphyr_next(&parser, &event)) == SAPHYR_EVENT) {
        bool is_scalar = event.kind == SAPHYR_SCALAR;
        expect(is_scalar && memcmp(event.value.at, "\xe2\x82\xac \xf0\x9f\x98\x80", 8), 0, "the characters that came");
        expect((int32_t)event.value.len, is_scalar ? 8 : 0, "how many bytes came");
    }
    expect(status, SAPHYR_END, "behind the characters that came");
    saphyr_free(&parser);
}

/* Bytes that are known to be UTF-8 are added as others are. Behind a part of a character they are not. */
static void adds_known_characters(void) {
    static const struct {
        const char *piece;
        bool is_known;
        int32_t status;
    } pieces[] = {{"- \xc3\xa9", true, SAPHYR_OK},
                  {"\xe2\x82", false, SAPHYR_OK},
                  {"a", true, SAPHYR_NOT_UTF8},
                  {"", true, SAPHYR_NOT_UTF8},
                  {"\xac", false, SAPHYR_OK},
                  {"\xf0\x9f\x98\x80\n", true, SAPHYR_OK},
                  {"", true, SAPHYR_OK},
                  {"a", true, SAPHYR_WHOLE},
                  {"", true, SAPHYR_WHOLE}};
    saphyr_parser parser = {0};
    saphyr_event event = {0};
    int32_t status;
    expect(saphyr_new_pieces(false, 0, 0, &parser), SAPHYR_OK, "a text in pieces");
    for (size_t at = 0; at < sizeof pieces / sizeof *pieces; at++) {
        const uint8_t *bytes = (const uint8_t *)pieces[at].piece;
        size_t len = strlen(pieces[at].piece);
        status = pieces[at].is_known ? saphyr_add_utf8(&parser, bytes, len) : saphyr_add(&parser, bytes, len);
        expect(status, pieces[at].status, pieces[at].piece);
    }
    while ((status = saphyr_next(&parser, &event)) == SAPHYR_EVENT) {
        bool is_scalar = event.kind == SAPHYR_SCALAR;
        expect(is_scalar && memcmp(event.value.at, "\xc3\xa9\xe2\x82\xac\xf0\x9f\x98\x80", 9), 0, "known characters");
        expect((int32_t)event.value.len, is_scalar ? 9 : 0, "how many bytes of known characters came");
    }
    expect(status, SAPHYR_END, "behind known characters");
    expect(make("a", &parser), SAPHYR_OK, "a text");
    expect(saphyr_add_utf8(&parser, (const uint8_t *)"a", 1), SAPHYR_WHOLE, "characters behind a whole text");
    saphyr_free(&parser);
}

/* NULL stands for no bytes, and for no parser to free. */
static void takes_null(void) {
    saphyr_parser parser = {0};
    saphyr_event event = {0};
    int32_t status;
    saphyr_free(NULL);
    expect(saphyr_valid_up_to(NULL, 0) == 0, true, "how many of no bytes are UTF-8");
    expect(saphyr_new(NULL, 0, false, &parser), SAPHYR_OK, "no bytes");
    expect(documents(&parser, &status), 0, "documents of no bytes");
    expect(status, SAPHYR_END, "behind no bytes");
    expect(saphyr_new_utf8(NULL, 0, false, &parser), SAPHYR_OK, "no bytes in UTF-8");
    expect(documents(&parser, &status), 0, "documents of no bytes in UTF-8");
    expect(saphyr_new_pieces(false, 0, 0, &parser), SAPHYR_OK, "a text in pieces");
    expect(add(&parser, "a"), SAPHYR_OK, "a piece");
    expect(saphyr_add_utf8(&parser, NULL, 0), SAPHYR_OK, "the end of a text, as no characters");
    expect(saphyr_add(&parser, NULL, 0), SAPHYR_WHOLE, "the end of a text, as no bytes");
    expect(documents(&parser, &status), 1, "documents behind the end");
    expect(status, SAPHYR_END, "behind the end");
    expect(saphyr_next(&parser, &event), SAPHYR_END, "behind the end");
    saphyr_free(&parser);
}

/* Each status has words of its own. */
static void says_what_a_status_means(void) {
    const int32_t statuses[] = {SAPHYR_OK, SAPHYR_EVENT, SAPHYR_MORE, SAPHYR_REFUSED, SAPHYR_NO_MEMORY,
                                SAPHYR_NOT_UTF8, SAPHYR_NO_PARSER, SAPHYR_UTF16, SAPHYR_WHOLE, SAPHYR_TOO_MUCH,
                                SAPHYR_DEVIATES, SAPHYR_TOO_LONG, 99};
    for (size_t one = 0; one < sizeof statuses / sizeof *statuses; one++) {
        for (size_t other = 0; other < one; other++) {
            bool is_same = !strcmp(saphyr_status_text(statuses[one]), saphyr_status_text(statuses[other]));
            expect(is_same, false, saphyr_status_text(statuses[one]));
        }
    }
}

static bool is_text(saphyr_text text, const char *wanted) {
    return wanted ? text.len == strlen(wanted) && !memcmp(text.at, wanted, text.len) : !text.at && !text.len;
}

/* Whether a text is YAML 1.2.2: the status, the place, and the rule if one is broken. Each field is written. */
static void knows_the_standard(void) {
    static const struct {
        const char *text;
        size_t len;
        int32_t status;
        size_t index, line, col;
        const char *rule;
    } texts[] = {{"", 0, SAPHYR_OK, 0, 0, 0, NULL},
                 {"a: [b, 'c']\r\n", 13, SAPHYR_OK, 0, 0, 0, NULL},
                 {"- a\n- b\x07\n", 9, SAPHYR_DEVIATES, 7, 2, 3, "unprintable-character"},
                 {"a\r\n\x07", 4, SAPHYR_DEVIATES, 3, 2, 0, "unprintable-character"},
                 {"&x [a", 5, SAPHYR_REFUSED, 5, 2, 0, NULL},
                 {"a: \xff", 4, SAPHYR_NOT_UTF8, 0, 0, 0, NULL},
                 {"\xff\xfe" "a\0", 4, SAPHYR_UTF16, 0, 0, 0, NULL},
                 {"\xff\xfe\0\0", 4, SAPHYR_NOT_UTF8, 0, 0, 0, NULL},
                 {NULL, 0, SAPHYR_OK, 0, 0, 0, NULL}};
    saphyr_deviation deviation = {0};
    for (size_t at = 0; at < sizeof texts / sizeof *texts; at++) {
        const char *text = texts[at].text, *rule = texts[at].rule;
        int32_t status = saphyr_check_standard((const uint8_t *)text, texts[at].len, &deviation);
        saphyr_marker place = deviation.place;
        expect(status, texts[at].status, text);
        expect(place.index == texts[at].index && place.line == texts[at].line, true, text);
        expect((int32_t)place.col, (int32_t)texts[at].col, text);
        expect(is_text(deviation.rule, rule), true, text);
        expect(deviation.sentence.at != NULL && deviation.sentence.len > 9, rule != NULL, text);
    }
}

/* Nothing can be added to a whole text. Nothing is needed of a text that is refused. */
static void adds_where_it_may(void) {
    saphyr_parser parser = {0};
    saphyr_event event = {0};
    int32_t status;
    expect(make("a", &parser), SAPHYR_OK, "a text");
    expect(add(&parser, "b"), SAPHYR_WHOLE, "more of a whole text");
    expect(add(&parser, ""), SAPHYR_WHOLE, "the end of a whole text");
    expect(documents(&parser, &status), 1, "documents of a whole text");
    expect(saphyr_new_pieces(false, 0, 0, &parser), SAPHYR_OK, "a text in pieces over a live parser");
    expect(saphyr_next(&parser, &event), SAPHYR_EVENT, "the start of the stream, of which nothing came");
    expect(event.kind, SAPHYR_STREAM_START, "the start of the stream");
    expect(saphyr_peek(&parser, &event), SAPHYR_MORE, "a text of which nothing came");
    expect(add(&parser, "@\n--- b\n"), SAPHYR_OK, "a text that is refused");
    expect(documents(&parser, &status), 0, "documents of a text that is refused");
    expect(status, SAPHYR_REFUSED, "a text that is refused");
    expect(add(&parser, "c"), SAPHYR_OK, "more of a text that is refused");
    expect(saphyr_next(&parser, &event), SAPHYR_END, "behind a fault");
    expect(add(&parser, ""), SAPHYR_OK, "the end of a text that is refused");
    expect(saphyr_next(&parser, &event), SAPHYR_END, "behind a fault");
    saphyr_free(&parser);
    expect_empty(&parser, "a handle of a text in pieces that was freed");
}

/* Adds a text again and again, up to so many bytes, until a call does not ask for more. How many bytes came. */
static size_t add_again(saphyr_parser *parser, const char *piece, size_t most, int32_t *status) {
    size_t came = 0;
    while ((documents(parser, status), *status == SAPHYR_MORE) && came < most) {
        expect(add(parser, piece), SAPHYR_OK, piece);
        came += strlen(piece);
    }
    return came;
}

/* Where more waits than may, that is said, and nothing is lost. A text of which little waits may have no end. */
static void keeps_to_what_may_wait(void) {
    static const struct {
        const char *begins, *goes_on;
    } waits[] = {{"[", "a, "},       {"\"", "a"},    {"# ", "a"},          {"- [", "a,\n  "},
                 {"? |\n", " a\n"}, {"a", "\n a"}, {"%YAML 1.2\n", "%A\n"}, {"%A\n", "# c\n"}};
    static const char *const flows[] = {"- a\n", "a: b\n", "--- [a]\n", "'a':\n - b\n", "- |\n a\n", "- \n",
                                        "--- {a: b}\n", "\xef\xbb\xbf--- a\n", "a:\n  # c\n", "---\n...\n",
                                        "\n", "# a\n", "  # a\n\n", "...\n", " # a\n... # c\n\n",
                                        "%A\n", "%A b\n# c\n", "\xef\xbb\xbf\n", "\xef\xbb\xbf...\n",
                                        "\r\n", "# a\r\n", " \t\n", "\t# a\r\n"};
    saphyr_parser parser = {0};
    saphyr_event event = {0};
    int32_t status;
    for (size_t at = 0; at < sizeof waits / sizeof *waits; at++) {
        expect(saphyr_new_pieces(false, 0, 1000, &parser), SAPHYR_OK, "a text of which little may wait");
        expect(add(&parser, waits[at].begins), SAPHYR_OK, waits[at].begins);
        size_t came = strlen(waits[at].begins) + add_again(&parser, waits[at].goes_on, 2000, &status);
        expect(status, SAPHYR_TOO_MUCH, waits[at].begins);
        expect(1000 < came && came < 1020, true, waits[at].begins);
        expect(saphyr_peek(&parser, &event), SAPHYR_TOO_MUCH, "a peek where too much waits");
        expect(event.kind == SAPHYR_NOTHING && is_bare(&event), true, "no event where too much waits");
        expect(add(&parser, ""), SAPHYR_OK, "the end of a text of which too much waits");
        documents(&parser, &status);
        expect(status == SAPHYR_END || status == SAPHYR_REFUSED, true, "a text of which too much waited");
    }
    for (size_t at = 0; at < sizeof flows / sizeof *flows; at++) {
        expect(saphyr_new_pieces(false, 0, 20, &parser), SAPHYR_OK, "a text of which very little may wait");
        add_again(&parser, flows[at], 5000, &status);
        expect(status, SAPHYR_MORE, flows[at]);
    }
    saphyr_free(&parser);
}

static void expect_waiting(saphyr_parser *parser, int32_t wanted, size_t index, size_t line, size_t col) {
    saphyr_event event = {0};
    saphyr_parser copy = {0};
    expect(saphyr_clone(parser, &copy), SAPHYR_OK, "a clone of what waits");
    for (int way = 0; way < 3; way++) {
        int32_t status = way == 0 ? saphyr_peek(parser, &event) : saphyr_next(way == 1 ? parser : &copy, &event);
        expect(status, wanted, "an event that waits");
        bool is_there = event.start.index == index && event.start.line == line && event.start.col == col;
        expect(is_there, true, "where it waits");
        expect(!memcmp(&event.start, &event.end, sizeof event.start), true, "where it waits, again");
    }
    saphyr_free(&copy);
}

/* Where an event waits, the place is told at which the last one ends. */
static void tells_behind_what_it_waits(void) {
    saphyr_parser parser = {0};
    saphyr_event event = {0};
    int32_t status;
    expect(saphyr_new_pieces(false, 0, 9, &parser), SAPHYR_OK, "a text of which little may wait");
    expect(documents(&parser, &status), 0, "documents before the first bytes");
    expect_waiting(&parser, SAPHYR_MORE, 0, 1, 0);
    expect(add(&parser, "- \xc3\xa9"), SAPHYR_OK, "a scalar that may go on");
    expect(documents(&parser, &status), 0, "documents before a scalar that may go on");
    expect_waiting(&parser, SAPHYR_MORE, 0, 1, 0);
    expect(add(&parser, "b\n- "), SAPHYR_OK, "the end of a scalar");
    expect(saphyr_next(&parser, &event), SAPHYR_EVENT, "the document of a scalar that has ended");
    expect(saphyr_next(&parser, &event), SAPHYR_EVENT, "the sequence of a scalar that has ended");
    expect(saphyr_peek(&parser, &event), SAPHYR_EVENT, "a scalar that has ended");
    expect(saphyr_next(&parser, &event), SAPHYR_EVENT, "a scalar that has ended");
    expect(event.kind, SAPHYR_SCALAR, "a scalar that has ended");
    expect_waiting(&parser, SAPHYR_MORE, 4, 1, 4);
    expect(add(&parser, "'and so on"), SAPHYR_OK, "more than may wait");
    expect_waiting(&parser, SAPHYR_TOO_MUCH, 4, 1, 4);
    saphyr_free(&parser);
}

/* What is behind a bracket that is not closed is not kept without an end. */
static void tells_an_unclosed_bracket(void) {
    saphyr_parser parser = {0};
    int32_t status;
    expect(saphyr_new_pieces(false, 0, 1000, &parser), SAPHYR_OK, "a text of which little may wait");
    expect(add(&parser, "---\n{\"a\": [1, 2\n"), SAPHYR_OK, "a bracket that is not closed");
    size_t came = add_again(&parser, "---\n{\"a\": [1, 2]}\n", 2000, &status);
    expect(status == SAPHYR_REFUSED || status == SAPHYR_TOO_MUCH, true, "a bracket that is not closed");
    expect(came < 1100, true, "a bracket that is not closed");
    saphyr_free(&parser);
}

/* A clone tells an event when its parser does: it looks at what waits where that does. */
static void clones_where_much_waits(void) {
    saphyr_parser parser = {0}, copy = {0};
    saphyr_event event = {0};
    char many[301] = {0};
    const char *const pieces[] = {"- \"", many, many, "a b c d e", "\"\n- b\n", "- c\n", many, "- d\n"};
    int32_t status, wanted;
    memset(many, 'x', sizeof many - 1);
    expect(saphyr_new_pieces(false, 0, 0, &parser), SAPHYR_OK, "a text in pieces");
    for (size_t at = 0; at < sizeof pieces / sizeof *pieces; at++) {
        expect(add(&parser, pieces[at]), SAPHYR_OK, "a piece");
        do {
            expect(saphyr_clone(&parser, &copy), SAPHYR_OK, "a clone where much waits");
            wanted = saphyr_next(&parser, &event);
            status = saphyr_next(&copy, &event);
            expect(status, wanted, "a clone where much waits");
        } while (wanted == SAPHYR_EVENT);
    }
    saphyr_free(&parser);
    saphyr_free(&copy);
}

/* Long texts in pieces. Each piece is looked at a few times, so this ends soon. */
static void reads_long_texts(void) {
    static const struct {
        const char *begins, *goes_on, *ends;
    } texts[] = {{"", "- &a b\n", ""}, {"", "- ", "a"}, {"[", "a, ", "]"}, {"\"", "a b ", "\""}, {"", "\n", ""},
                 {"", "# a\n", ""},    {"", "...\n", ""}, {"--- [", "{a: b},\n", "]"}};
    static const size_t pieces[] = {1, 64, 4096};
    enum { TIMES = 20000 };
    char *text = malloc(TIMES * 10);
    for (size_t at = 0; text && at < sizeof texts / sizeof *texts; at++) {
        size_t len = (size_t)sprintf(text, "%s", texts[at].begins);
        for (size_t times = 0; times < TIMES; times++) {
            len += (size_t)sprintf(text + len, "%s", texts[at].goes_on);
        }
        len += (size_t)sprintf(text + len, "%s", texts[at].ends);
        for (size_t size = 0; size < sizeof pieces / sizeof *pieces; size++) {
            saphyr_parser parser = {0};
            int32_t status;
            expect(saphyr_new_pieces(false, 0, 0, &parser), SAPHYR_OK, "a long text in pieces");
            for (size_t came = 0; came < len; came += pieces[size]) {
                size_t left = len - came;
                const uint8_t *next = (const uint8_t *)text + came;
                expect(saphyr_add(&parser, next, left < pieces[size] ? left : pieces[size]), SAPHYR_OK, "a piece");
                documents(&parser, &status);
            }
            expect(add(&parser, ""), SAPHYR_OK, "the end of a long text in pieces");
            documents(&parser, &status);
            expect(status, SAPHYR_END, texts[at].goes_on);
            saphyr_free(&parser);
        }
    }
    free(text);
}

/* A text of more characters than may be is refused once a token that passes the limit has ended, or with the end. */
static void keeps_to_how_many_characters_may_come(void) {
    saphyr_parser parser = {0};
    saphyr_event event = {0};
    int32_t status;
    for (size_t limit = 1; limit < 10; limit++) {
        expect(saphyr_new_pieces(false, limit, 0, &parser), SAPHYR_OK, "a text of few characters");
        expect(add(&parser, "[\xc3\xa9, b, c]"), SAPHYR_OK, "a text of nine characters");
        expect(add(&parser, ""), SAPHYR_OK, "the end of a text of nine characters");
        while ((status = saphyr_next(&parser, &event)) == SAPHYR_EVENT) {
        }
        expect(status, limit < 9 ? SAPHYR_TOO_LONG : SAPHYR_END, "a text of nine characters");
    }
    for (size_t limit = 1; limit < 100; limit++) {
        expect(saphyr_new_pieces(false, limit, 0, &parser), SAPHYR_OK, "a text of few characters");
        size_t came = add_again(&parser, "- a\n", 2000, &status);
        expect(status, SAPHYR_TOO_LONG, "a text without an end, of few characters");
        expect(limit < came && came < limit + 12, true, "a text without an end, of few characters");
    }
    saphyr_free(&parser);
}

int main(void) {
    expect((int32_t)saphyr_version(), (int32_t)SAPHYR_VERSION, "the version");
    frees_twice();
    refuses_bytes();
    gives_the_first_bad_byte();
    knows_utf16();
    replaces();
    writes_each_field();
    refuses_once();
    reads_in_place();
    keeps_tags();
    comes_at_once();
    refuses_pieces();
    adds_known_characters();
    takes_null();
    says_what_a_status_means();
    keeps_to_what_may_wait();
    keeps_to_how_many_characters_may_come();
    tells_behind_what_it_waits();
    tells_an_unclosed_bracket();
    clones_where_much_waits();
    reads_long_texts();
    adds_where_it_may();
    knows_the_standard();
    return failed;
}
