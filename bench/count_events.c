/*
 * Counts the events of a YAML file by the C face, and prints their number alone.
 *
 *     count_events FILE [TIMES [PIECE]]
 *
 * The file is parsed so many times, each with a parser of its own. With PIECE it is not read to memory, and its text
 * comes to the parser in pieces of so many bytes, or line by line with the word `lines`. The status is 1 where the text
 * is refused.
 */
#include "printing.h"

/* A file whose next piece has so many bytes, or is a line if that is 0. */
struct source {
    FILE *file;
    size_t piece, room;
    char *bytes;
};

static size_t next_piece(struct source *from) {
    if (from->piece) {
        return fread(from->bytes, 1, from->piece, from->file);
    }
    ssize_t got = getline(&from->bytes, &from->room, from->file);
    return got < 0 ? 0 : (size_t)got;
}

/* Adds the events of a text, and says whether all were there. */
static bool count(const uint8_t *text, size_t len, size_t *events) {
    saphyr_parser parser = {0};
    saphyr_event event = {0};
    int32_t status = saphyr_new(text, len, false, &parser);
    while (status >= 0 && (status = saphyr_next(&parser, &event)) == SAPHYR_EVENT) {
        ++*events;
    }
    saphyr_free(&parser);
    return status == SAPHYR_END;
}

/* The same of a file, whose text comes in pieces. */
static bool count_pieces(struct source *from, size_t *events) {
    saphyr_parser parser = {0};
    saphyr_event event = {0};
    int32_t status = saphyr_new_pieces(false, 0, 0, &parser);
    while (status >= 0 && (status = saphyr_next(&parser, &event)) > 0) {
        if (status == SAPHYR_MORE) {
            size_t len = next_piece(from);
            status = saphyr_add(&parser, (const uint8_t *)from->bytes, len);
        } else {
            ++*events;
        }
    }
    saphyr_free(&parser);
    return status == SAPHYR_END;
}

static int main_pieces(FILE *file, long times, size_t piece) {
    size_t events = 0;
    struct source from = {file, piece, piece, malloc(piece)};
    if (!file || (piece && !from.bytes)) {
        return 2;
    }
    for (; times > 0; times--) {
        rewind(file);
        if (!count_pieces(&from, &events)) {
            return 1;
        }
    }
    printf("%zu\n", events);
    return 0;
}

int main(int words, char **word) {
    FILE *file = words > 1 ? fopen(word[1], "rb") : stdin;
    size_t len, events = 0;
    if (words > 3) {
        return main_pieces(file, atol(word[2]), (size_t)atol(word[3]));
    }
    uint8_t *text = file ? read_all(file, &len) : NULL;
    if (!text) {
        return 2;
    }
    for (long left = words > 2 ? atol(word[2]) : 1; left > 0; left--) {
        if (!count(text, len, &events)) {
            return 1;
        }
    }
    printf("%zu\n", events);
    return 0;
}
