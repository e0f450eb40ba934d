/*
 * Prints a line for each document of a YAML text as soon as its end has come: the place of its root, and how many nodes
 * it has if each alias is a copy of its node. Only one document's tree is in memory at a time. Reads a file, or what
 * comes on a pipe.
 *
 *     cc -IRELEASE/include documents.c RELEASE/lib/libsaphyr_parser.a -o documents
 *     ./documents FILE
 *     PROGRAM | ./documents
 */
#include <fcntl.h>
#include <inttypes.h>
#include <saphyr_parser.h>
#include <stdio.h>
#include <unistd.h>

/* A text is given up if so many bytes came of which no event can be told: its writer may not be trusted. */
enum { MOST_WAITING = 1 << 20 };

/* Adds what has come. The status is 1 for a read that failed, since 0 bytes would say that the text has ended. */
static int32_t add_piece(saphyr_parser *parser, int file) {
    uint8_t piece[4096];
    ssize_t len = read(file, piece, sizeof piece);
    return len < 0 ? 1 : saphyr_add(parser, piece, (size_t)len);
}

static void print_document(saphyr_parser *parser, saphyr_event *event) {
    saphyr_describe(parser, saphyr_root(parser, 0), event);
    printf("%zu:%zu %" PRIu64 "\n", event->start.line, event->start.col + 1, saphyr_expanded(parser, 0));
    fflush(stdout);
}

/* Why no document is loaded, and where, if that has a place. */
static void print_fault(int32_t status, const saphyr_event *event) {
    if (status == SAPHYR_REFUSED || status == SAPHYR_TOO_LONG || status == SAPHYR_TOO_LARGE ||
        status == SAPHYR_TOO_MUCH) {
        fprintf(stderr, "%zu:%zu: ", event->start.line, event->start.col + 1);
    }
    if (status == SAPHYR_REFUSED) {
        fprintf(stderr, "%.*s\n", (int)event->value.len, (const char *)event->value.at);
    } else {
        fprintf(stderr, "%s\n", status < 0 ? saphyr_status_text(status) : "can't read the text");
    }
}

int main(int argc, char **argv) {
    static saphyr_parser parser; /* Zeroed, as what is static is. */
    static saphyr_event event;
    int file = argc > 1 ? open(argv[1], O_RDONLY) : 0;
    int32_t status = saphyr_new_pieces(false, 0, MOST_WAITING, &parser);
    while (status == SAPHYR_OK && (status = saphyr_load_next(&parser, 1000000, 100, &event)) > 0) {
        if (status == SAPHYR_MORE) {
            status = add_piece(&parser, file);
        } else {
            print_document(&parser, &event);
            status = SAPHYR_OK;
        }
    }
    if (status != SAPHYR_END) {
        print_fault(status, &event);
    }
    saphyr_free(&parser);
    return status != SAPHYR_END;
}
