/*
 * Loads the documents of a YAML file by libyaml, one after the other, and prints how many items or pairs their roots
 * have, as count_trees.c does by the C face.
 *
 *     libyaml_trees FILE
 */
#include "printing.h"

#include <yaml.h>

static size_t parts_of(const yaml_node_t *root) {
    switch (root->type) {
    case YAML_SEQUENCE_NODE: return (size_t)(root->data.sequence.items.top - root->data.sequence.items.start);
    case YAML_MAPPING_NODE: return (size_t)(root->data.mapping.pairs.top - root->data.mapping.pairs.start);
    default: return 0;
    }
}

int main(int words, char **word) {
    FILE *file = words > 1 ? fopen(word[1], "rb") : stdin;
    size_t len, parts = 0;
    uint8_t *text = file ? read_all(file, &len) : NULL;
    yaml_parser_t parser;
    yaml_document_t document;
    if (!text || !yaml_parser_initialize(&parser)) {
        return 2;
    }
    yaml_parser_set_input_string(&parser, text, len);
    for (yaml_node_t *root = NULL;; yaml_document_delete(&document)) {
        if (!yaml_parser_load(&parser, &document)) {
            return 1;
        }
        root = yaml_document_get_root_node(&document);
        if (!root) {
            break;
        }
        parts += parts_of(root);
    }
    yaml_document_delete(&document);
    yaml_parser_delete(&parser);
    printf("%zu\n", parts);
    return 0;
}
