/*
 * Prints the events of a YAML text, a line for each, as the program `dump_events` does: an example of the C face.
 *
 *     dump_events [FILE]
 *
 * The status is 0 if all events were printed, and 1 if the text is refused or can't be read.
 */
#include "printing.h"

static char read_ahead[1 << 16];
static struct printer out;

static int dump(const uint8_t *text, size_t len) {
    saphyr_parser parser = {0};
    saphyr_event event = {0};
    int32_t status = saphyr_new(text, len, false, &parser);
    if (status == SAPHYR_OK) {
        while ((status = saphyr_next(&parser, &event)) == SAPHYR_EVENT) {
            print_event(&out, &event);
            print_byte(&out, '\n');
        }
    }
    flush(&out);
    fflush(stdout);
    switch (status) {
    case SAPHYR_REFUSED:
    case SAPHYR_TOO_LONG:
        print_fault(stderr, &event);
        putc('\n', stderr);
        break;
    case SAPHYR_NO_MEMORY: fputs("out of memory\n", stderr); break;
    case SAPHYR_UTF16:
    case SAPHYR_NOT_UTF8: fputs("dump_events: the text is not UTF-8\n", stderr); break;
    }
    saphyr_free(&parser);
    return status == SAPHYR_END ? 0 : 1;
}

int main(int count, char **words) {
    FILE *file = count > 1 ? fopen(words[1], "rb") : stdin;
    if (!file) {
        fprintf(stderr, "dump_events: can't read %s\n", words[1]);
        return 1;
    }
    setvbuf(file, read_ahead, _IOFBF, sizeof read_ahead);
    out.file = stdout;
    size_t len;
    uint8_t *text = read_all(file, &len);
    if (!text) {
        fputs("out of memory\n", stderr);
        return 1;
    }
    int status = dump(text, len);
    free(text);
    fclose(file);
    return status;
}
