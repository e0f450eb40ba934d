/*
 * Loads the documents of a YAML file as trees by the C face, and prints how many items or pairs their roots have.
 *
 *     count_trees FILE
 *
 * The status is 1 where the text is refused.
 */
#include "printing.h"

int main(int words, char **word) {
    FILE *file = words > 1 ? fopen(word[1], "rb") : stdin;
    size_t len, parts = 0;
    uint8_t *text = file ? read_all(file, &len) : NULL;
    saphyr_parser parser = {0};
    saphyr_event event = {0};
    if (!text || saphyr_new(text, len, false, &parser) != SAPHYR_OK) {
        return 2;
    }
    int32_t status = saphyr_load(&parser, SIZE_MAX, SIZE_MAX, &event);
    for (size_t index = 0; saphyr_root(&parser, index) != SAPHYR_NO_NODE; index++) {
        parts += saphyr_count(&parser, saphyr_root(&parser, index));
    }
    printf("%zu\n", parts);
    saphyr_free(&parser);
    return status != SAPHYR_OK;
}
