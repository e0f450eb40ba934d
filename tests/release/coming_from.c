/*
 * Reads texts by libyaml and by this library, and says where both are not as docs/COMING_FROM.md says. Prints nothing
 * where all is so.
 */
#include <saphyr_parser.h>
#include <stdio.h>
#include <string.h>
#include <yaml.h>

static const char TEXT[] = "--- !!map\na: &x [1, 'b']\n\"c\": !<t> &y >\n  d\n? |-\n  e\n: *y\n---\n- &z f\n...\n";
static int failed;

#define EXPECT(fact) (void)((fact) || (failed = 1, printf("line %d: %s\n", __LINE__, #fact)))

static int has(saphyr_text text, const void *bytes, size_t len) {
    return text.len == len && memcmp(text.at, bytes, len) == 0;
}

/* Whether a tag is `tag_handle`, followed by `tag_suffix`. */
static int is_tag(const saphyr_event *event, const yaml_char_t *tag) {
    char joined[100];
    snprintf(joined, sizeof joined, "%.*s%.*s", (int)event->tag_handle.len, (const char *)event->tag_handle.at,
             (int)event->tag_suffix.len, (const char *)event->tag_suffix.at);
    return tag ? event->has_tag == 1 && strcmp(joined, (const char *)tag) == 0 : event->has_tag == 0;
}

/* The fields of an event. An anchor is a number from 1, and here the letters `x`, `y` and `z` in this order. */
static void compare(const yaml_event_t *theirs, const saphyr_event *ours) {
    static const int styles[] = {YAML_PLAIN_SCALAR_STYLE, YAML_SINGLE_QUOTED_SCALAR_STYLE,
                                 YAML_DOUBLE_QUOTED_SCALAR_STYLE, YAML_LITERAL_SCALAR_STYLE, YAML_FOLDED_SCALAR_STYLE};
    const yaml_char_t *anchor = NULL, *tag = NULL;
    EXPECT((int)theirs->type == ours->kind);
    switch (theirs->type) {
    case YAML_SCALAR_EVENT:
        anchor = theirs->data.scalar.anchor;
        tag = theirs->data.scalar.tag;
        EXPECT(has(ours->value, theirs->data.scalar.value, theirs->data.scalar.length));
        EXPECT((int)theirs->data.scalar.style == styles[ours->style]);
        break;
    case YAML_SEQUENCE_START_EVENT:
        anchor = theirs->data.sequence_start.anchor;
        tag = theirs->data.sequence_start.tag;
        break;
    case YAML_MAPPING_START_EVENT:
        tag = theirs->data.mapping_start.tag;
        break;
    case YAML_ALIAS_EVENT:
        anchor = theirs->data.alias.anchor;
        break;
    case YAML_DOCUMENT_START_EVENT:
        EXPECT(ours->is_explicit == !theirs->data.document_start.implicit);
        break;
    default:
        break;
    }
    EXPECT(ours->anchor == (anchor ? (size_t)(anchor[0] - 'x' + 1) : 0));
    EXPECT(is_tag(ours, tag));
    if (theirs->type == YAML_SCALAR_EVENT && !anchor && !tag) {
        EXPECT(ours->start.line == theirs->start_mark.line + 1 || ours->style >= SAPHYR_LITERAL);
    }
}

/* Each event of a text, and what comes after its end. */
static void compare_events(const char *text) {
    yaml_parser_t parser;
    yaml_event_t theirs;
    saphyr_parser own = {0};
    saphyr_event ours;
    int status;
    yaml_parser_initialize(&parser);
    yaml_parser_set_input_string(&parser, (const unsigned char *)text, strlen(text));
    EXPECT(saphyr_new((const uint8_t *)text, strlen(text), false, &own) == SAPHYR_OK);
    while ((status = saphyr_next(&own, &ours)) == SAPHYR_EVENT) {
        EXPECT(yaml_parser_parse(&parser, &theirs) == 1);
        compare(&theirs, &ours);
        yaml_event_delete(&theirs);
    }
    EXPECT(status == SAPHYR_END && yaml_parser_parse(&parser, &theirs) == 1 && theirs.type == YAML_NO_EVENT);
    saphyr_free(&own);
    yaml_parser_delete(&parser);
}

/* Where a text is refused, and that both say why. */
static void compare_faults(const char *text) {
    yaml_parser_t parser;
    yaml_event_t theirs;
    saphyr_parser own = {0};
    saphyr_event ours;
    int status;
    yaml_parser_initialize(&parser);
    yaml_parser_set_input_string(&parser, (const unsigned char *)text, strlen(text));
    while (yaml_parser_parse(&parser, &theirs)) {
        yaml_event_delete(&theirs);
    }
    saphyr_new((const uint8_t *)text, strlen(text), false, &own);
    while ((status = saphyr_next(&own, &ours)) == SAPHYR_EVENT) {
    }
    EXPECT(status == SAPHYR_REFUSED && ours.value.len > 0 && parser.problem && parser.context == NULL);
    EXPECT(ours.start.line == parser.problem_mark.line + 1 && ours.start.col == parser.problem_mark.column);
    EXPECT(saphyr_next(&own, &ours) == SAPHYR_END);
    saphyr_free(&own);
    yaml_parser_delete(&parser);
}

/* The documents, as trees. */
static void compare_trees(void) {
    yaml_parser_t parser;
    yaml_document_t document;
    saphyr_parser own = {0};
    saphyr_event event;
    yaml_parser_initialize(&parser);
    yaml_parser_set_input_string(&parser, (const unsigned char *)TEXT, strlen(TEXT));
    EXPECT(yaml_parser_load(&parser, &document));
    yaml_node_t *root = yaml_document_get_root_node(&document);
    yaml_node_pair_t *pair = root->data.mapping.pairs.start;
    saphyr_new((const uint8_t *)TEXT, strlen(TEXT), false, &own);
    EXPECT(saphyr_load_next(&own, 0, 0, &event) == SAPHYR_TOO_LARGE);
    saphyr_new((const uint8_t *)TEXT, strlen(TEXT), false, &own);
    EXPECT(saphyr_load_next(&own, 100, 100, &event) == SAPHYR_LOADED);
    saphyr_node node = saphyr_root(&own, 0);
    EXPECT(saphyr_count(&own, node) == 3 && root->data.mapping.pairs.top - pair == 3);
    yaml_node_t *first = yaml_document_get_node(&document, pair->key);
    EXPECT(saphyr_describe(&own, saphyr_key(&own, node, 0), &event) == SAPHYR_EVENT);
    EXPECT(has(event.value, first->data.scalar.value, first->data.scalar.length));
    /* There an alias is the node that it names; here it is a node of its own. */
    EXPECT(pair[2].value == pair[1].value);
    EXPECT(saphyr_describe(&own, saphyr_value(&own, node, 2), &event) == SAPHYR_EVENT && event.kind == SAPHYR_ALIAS);
    EXPECT(saphyr_follow(&own, saphyr_value(&own, node, 2)) == saphyr_value(&own, node, 1));
    saphyr_node list = saphyr_get(&own, node, "a", 1);
    EXPECT(saphyr_describe(&own, saphyr_item(&own, list, 1), &event) == SAPHYR_EVENT && has(event.value, "b", 1));
    EXPECT(saphyr_load_next(&own, 100, 100, &event) == SAPHYR_LOADED);
    EXPECT(saphyr_load_next(&own, 100, 100, &event) == SAPHYR_END);
    saphyr_free(&own);
    yaml_document_delete(&document);
    yaml_parser_delete(&parser);
}

/* Bytes that are no text in UTF-8. */
static void compare_bytes(void) {
    static const uint8_t wrong[] = "ab\xff", utf16[] = {0xff, 0xfe, 'a', 0}, utf32[] = {0xff, 0xfe, 0, 0, 'a', 0, 0, 0};
    yaml_parser_t parser;
    yaml_event_t event;
    saphyr_parser own = {0};
    yaml_parser_initialize(&parser);
    yaml_parser_set_input_string(&parser, wrong, 3);
    while (yaml_parser_parse(&parser, &event)) {
        yaml_event_delete(&event);
    }
    EXPECT(saphyr_new(wrong, 3, false, &own) == SAPHYR_NOT_UTF8);
    EXPECT(saphyr_valid_up_to(wrong, 3) == parser.problem_offset);
    EXPECT(saphyr_new(utf16, sizeof utf16, false, &own) == SAPHYR_UTF16);
    EXPECT(saphyr_new(utf32, sizeof utf32, false, &own) == SAPHYR_NOT_UTF8);
    yaml_parser_delete(&parser);
}

int main(void) {
    compare_events(TEXT);
    compare_faults("a: b\nc: d: e\n");
    compare_trees();
    compare_bytes();
    return failed;
}
