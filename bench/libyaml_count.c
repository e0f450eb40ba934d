/*
 * Counts the events of a YAML file by libyaml, as count_events.c does by the C face.
 *
 *     libyaml_count FILE [TIMES [PIECE]]
 *
 * With the word `lines` as PIECE it is given the whole text.
 */
#include "printing.h"

#include <yaml.h>

/* A file, of which each read gives so many bytes at most. */
struct pieces {
    FILE *file;
    size_t piece;
};

static int read_piece(void *data, unsigned char *bytes, size_t size, size_t *len) {
    struct pieces *it = data;
    *len = fread(bytes, 1, size < it->piece ? size : it->piece, it->file);
    return 1;
}

/* Adds the events of a parser's text, and says whether all were there. */
static bool count(yaml_parser_t *parser, size_t *events) {
    yaml_event_type_t type = YAML_NO_EVENT;
    yaml_event_t event;
    while (type != YAML_STREAM_END_EVENT && yaml_parser_parse(parser, &event)) {
        type = event.type;
        ++*events;
        yaml_event_delete(&event);
    }
    yaml_parser_delete(parser);
    return type == YAML_STREAM_END_EVENT;
}

int main(int words, char **word) {
    FILE *file = words > 1 ? fopen(word[1], "rb") : stdin;
    struct pieces pieces = {file, words > 3 ? (size_t)atol(word[3]) : 0};
    size_t len, events = 0;
    uint8_t *text = file && !pieces.piece ? read_all(file, &len) : NULL;
    if (!file || (!text && !pieces.piece)) {
        return 2;
    }
    for (long left = words > 2 ? atol(word[2]) : 1; left > 0; left--) {
        yaml_parser_t parser;
        if (!yaml_parser_initialize(&parser)) {
            return 1;
        }
        if (text) {
            yaml_parser_set_input_string(&parser, text, len);
        } else {
            rewind(file);
            yaml_parser_set_input(&parser, read_piece, &pieces);
        }
        if (!count(&parser, &events)) {
            return 1;
        }
    }
    printf("%zu\n", events);
    return 0;
}
