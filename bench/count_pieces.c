/*
 * Counts the events of a YAML file by the C face, as its bytes come in pieces. Prints their number, and how many bytes
 * had come when the first scalar was handed out.
 *
 *     count_pieces FILE [BYTES]
 *
 * A piece has so many bytes, or 4,096. The status is 1 where the text is refused.
 */
#include <saphyr_parser.h>
#include <stdio.h>
#include <stdlib.h>

int main(int words, char **word) {
    FILE *file = words > 1 ? fopen(word[1], "rb") : stdin;
    size_t len = words > 2 ? strtoul(word[2], NULL, 10) : 4096, came = 0, first = 0, events = 0;
    uint8_t *piece = malloc(len);
    saphyr_parser parser = {0};
    saphyr_event event = {0};
    if (!file || !piece) {
        return 2;
    }
    int32_t status = saphyr_new_pieces(false, 0, 0, &parser);
    while (status >= 0 && (status = saphyr_next(&parser, &event)) > 0) {
        if (status == SAPHYR_MORE) {
            size_t more = fread(piece, 1, len, file);
            status = saphyr_add(&parser, piece, more);
            came += more;
        } else {
            events++;
            first = first || event.kind != SAPHYR_SCALAR ? first : came;
        }
    }
    saphyr_free(&parser);
    free(piece);
    printf("%zu events, the first scalar behind %zu bytes\n", events, first);
    return status == SAPHYR_END ? 0 : 1;
}
