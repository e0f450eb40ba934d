/*
 * Loads the documents of a YAML file by libfyaml, one after the other, and prints how many items or pairs their roots
 * have, as count_trees.c does by the C face.
 *
 *     libfyaml_trees FILE
 */
#include <libfyaml.h>
#include <stdio.h>

static int parts_of(struct fy_node *root) {
    switch (root ? fy_node_get_type(root) : FYNT_SCALAR) {
    case FYNT_SEQUENCE: return fy_node_sequence_item_count(root);
    case FYNT_MAPPING: return fy_node_mapping_item_count(root);
    default: return 0;
    }
}

int main(int words, char **word) {
    struct fy_parse_cfg how = {.search_path = "", .flags = FYPCF_QUIET};
    struct fy_parser *parser = fy_parser_create(&how);
    struct fy_document *document;
    size_t parts = 0;
    if (words != 2 || !parser || fy_parser_set_input_file(parser, word[1])) {
        return 2;
    }
    while ((document = fy_parse_load_document(parser))) {
        parts += (size_t)parts_of(fy_document_root(document));
        fy_parse_document_destroy(parser, document);
    }
    int is_refused = fy_parser_get_stream_error(parser);
    fy_parser_destroy(parser);
    printf("%zu\n", parts);
    return is_refused;
}
