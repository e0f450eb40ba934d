/*
 * Prints the events of a YAML file by libfyaml, a line for each, as `dump_events` does, with the names of anchors.
 *
 *     libfyaml_dump FILE
 *
 * It prints by the functions by which the program over the C face prints.
 */
#include "printing.h"

#include <libfyaml.h>

static struct printer out;

static void print_token(const char *before, struct fy_token *token, const char *after) {
    size_t len = 0;
    const char *text = token ? fy_token_get_text(token, &len) : NULL;
    if (text) {
        print_bytes(&out, before, strlen(before));
        print_bytes(&out, text, len);
        print_bytes(&out, after, strlen(after));
    }
}

static void print_start(const char name[5], struct fy_token *anchor, struct fy_token *tag) {
    print_name(&out, name);
    print_token(" &", anchor, "");
    print_token(" <", tag, ">");
}

static void print_scalar(const struct fy_event *event) {
    size_t len = 0;
    const char *text = fy_token_get_text(event->scalar.value, &len);
    enum fy_scalar_style style = fy_scalar_token_get_style(event->scalar.value);
    print_start("=VAL", event->scalar.anchor, event->scalar.tag);
    print_byte(&out, ' ');
    print_byte(&out, style < FYSS_PLAIN ? ':' : ":'\"|>"[style - FYSS_PLAIN]);
    print_escaped(&out, (saphyr_text){(const uint8_t *)text, len});
}

static void print_line(const struct fy_event *event) {
    switch (event->type) {
    case FYET_NONE: return;
    case FYET_STREAM_START: print_name(&out, "+STR"); break;
    case FYET_STREAM_END: print_name(&out, "-STR"); break;
    case FYET_DOCUMENT_START: print_name(&out, "+DOC"); break;
    case FYET_DOCUMENT_END: print_name(&out, "-DOC"); break;
    case FYET_ALIAS: print_token("=ALI *", event->alias.anchor, ""); break;
    case FYET_SCALAR: print_scalar(event); break;
    case FYET_SEQUENCE_START: print_start("+SEQ", event->sequence_start.anchor, event->sequence_start.tag); break;
    case FYET_SEQUENCE_END: print_name(&out, "-SEQ"); break;
    case FYET_MAPPING_START: print_start("+MAP", event->mapping_start.anchor, event->mapping_start.tag); break;
    case FYET_MAPPING_END: print_name(&out, "-MAP"); break;
    }
    print_byte(&out, '\n');
}

int main(int count, char **words) {
    struct fy_parse_cfg how = {.search_path = "", .flags = FYPCF_QUIET};
    struct fy_parser *parser = fy_parser_create(&how);
    struct fy_event *event;
    if (count != 2 || !parser || fy_parser_set_input_file(parser, words[1])) {
        return 2;
    }
    out.file = stdout;
    while ((event = fy_parser_parse(parser))) {
        print_line(event);
        fy_parser_event_free(parser, event);
    }
    flush(&out);
    bool is_refused = fy_parser_get_stream_error(parser);
    fy_parser_destroy(parser);
    return is_refused;
}
