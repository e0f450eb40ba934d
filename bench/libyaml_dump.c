/*
 * Prints the events of a YAML file by libyaml, a line for each, as `dump_events` does, with the names of anchors.
 *
 *     libyaml_dump [FILE]
 *
 * It prints by the functions by which the program over the C face prints.
 */
#include "printing.h"

#include <yaml.h>

static struct printer out;

static void print_string(const char *before, const yaml_char_t *text) {
    print_bytes(&out, before, strlen(before));
    print_bytes(&out, text, strlen((const char *)text));
}

static void print_start(const char name[5], const yaml_char_t *anchor, const yaml_char_t *tag) {
    print_name(&out, name);
    if (anchor) {
        print_string(" &", anchor);
    }
    if (tag) {
        print_string(" <", tag);
        print_byte(&out, '>');
    }
}

static void print_scalar(const yaml_event_t *event) {
    print_start("=VAL", event->data.scalar.anchor, event->data.scalar.tag);
    print_byte(&out, ' ');
    print_byte(&out, " :'\"|>"[event->data.scalar.style]);
    print_escaped(&out, (saphyr_text){event->data.scalar.value, event->data.scalar.length});
}

static void print_line(const yaml_event_t *event) {
    switch (event->type) {
    case YAML_NO_EVENT: return;
    case YAML_STREAM_START_EVENT: print_name(&out, "+STR"); break;
    case YAML_STREAM_END_EVENT: print_name(&out, "-STR"); break;
    case YAML_DOCUMENT_START_EVENT: print_name(&out, "+DOC"); break;
    case YAML_DOCUMENT_END_EVENT: print_name(&out, "-DOC"); break;
    case YAML_ALIAS_EVENT: print_string("=ALI *", event->data.alias.anchor); break;
    case YAML_SCALAR_EVENT: print_scalar(event); break;
    case YAML_SEQUENCE_START_EVENT:
        print_start("+SEQ", event->data.sequence_start.anchor, event->data.sequence_start.tag);
        break;
    case YAML_SEQUENCE_END_EVENT: print_name(&out, "-SEQ"); break;
    case YAML_MAPPING_START_EVENT:
        print_start("+MAP", event->data.mapping_start.anchor, event->data.mapping_start.tag);
        break;
    case YAML_MAPPING_END_EVENT: print_name(&out, "-MAP"); break;
    }
    print_byte(&out, '\n');
}

int main(int count, char **words) {
    FILE *file = count > 1 ? fopen(words[1], "rb") : stdin;
    yaml_parser_t parser;
    if (!file || !yaml_parser_initialize(&parser)) {
        return 2;
    }
    yaml_parser_set_input_file(&parser, file);
    out.file = stdout;
    for (int is_last = 0; !is_last;) {
        yaml_event_t event;
        if (!yaml_parser_parse(&parser, &event)) {
            flush(&out);
            fprintf(stderr, "%s\n", parser.problem);
            return 1;
        }
        print_line(&event);
        is_last = event.type == YAML_STREAM_END_EVENT;
        yaml_event_delete(&event);
    }
    flush(&out);
    yaml_parser_delete(&parser);
    return 0;
}
