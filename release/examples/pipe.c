/*
 * Prints the scalars of a YAML text that comes on a pipe, a line for each with its place, and reads in pieces.
 *
 *     cc -IRELEASE/include pipe.c RELEASE/lib/libsaphyr_parser.a -o pipe
 *     PROGRAM | ./pipe
 */
#include <saphyr_parser.h>
#include <stdio.h>
#include <unistd.h>

/* A text is given up if so many bytes came of which no event can be told: its writer may not be trusted. */
enum { MOST_WAITING = 1 << 20 };

/* Adds what has come. The status is 1 for a read that failed, since 0 bytes would say that the text has ended. */
static int32_t add_piece(saphyr_parser *parser) {
    uint8_t piece[4096];
    ssize_t len = read(0, piece, sizeof piece);
    return len < 0 ? 1 : saphyr_add(parser, piece, (size_t)len);
}

static void print_scalar(const saphyr_event *event) {
    printf("%zu:%zu ", event->start.line, event->start.col + 1);
    fwrite(event->value.at, 1, event->value.len, stdout);
    putchar('\n');
    fflush(stdout);
}

int main(void) {
    static saphyr_parser parser; /* Zeroed, as what is static is. */
    static saphyr_event event;
    int32_t status = saphyr_new_pieces(false, 0, MOST_WAITING, &parser);
    while (status == SAPHYR_OK && (status = saphyr_next(&parser, &event)) > 0) {
        if (status == SAPHYR_MORE) {
            status = add_piece(&parser);
        } else {
            if (event.kind == SAPHYR_SCALAR) {
                print_scalar(&event);
            }
            status = SAPHYR_OK;
        }
    }
    if (status == SAPHYR_REFUSED) {
        fprintf(stderr, "%zu:%zu: %.*s\n", event.start.line, event.start.col + 1, (int)event.value.len,
                (const char *)event.value.at);
    } else if (status) {
        fprintf(stderr, "%s\n", status < 0 ? saphyr_status_text(status) : "can't read the text");
    }
    saphyr_free(&parser);
    return status == SAPHYR_END ? 0 : 1;
}
