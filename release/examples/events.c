/*
 * Prints the events of a YAML text, each with its place: a line such as `1:1-1:5 =VAL :name`.
 *
 *     cc -IRELEASE/include events.c RELEASE/lib/libsaphyr_parser.a -o events
 *     ./events < FILE
 */
#include <saphyr_parser.h>
#include <stdio.h>
#include <stdlib.h>

static const char *const names[] = {"", "+STR", "-STR", "+DOC", "-DOC", "=ALI", "=VAL", "+SEQ", "-SEQ", "+MAP", "-MAP"};
static const char marks[] = ":'\"|>";

static void print_text(saphyr_text text) {
    fwrite(text.at, 1, text.len, stdout);
}

static void print_event(const saphyr_event *event) {
    printf("%zu:%zu-%zu:%zu ", event->start.line, event->start.col + 1, event->end.line, event->end.col + 1);
    fputs(names[event->kind], stdout);
    if (event->anchor) {
        printf(event->kind == SAPHYR_ALIAS ? " *%zu" : " &%zu", event->anchor);
    }
    if (event->has_tag) {
        fputs(" <", stdout);
        print_text(event->tag_handle);
        print_text(event->tag_suffix);
        putchar('>');
    }
    if (event->kind == SAPHYR_SCALAR) {
        printf(" %c", marks[event->style]);
        print_text(event->value);
    }
    putchar('\n');
}

/* Reads a file to its end. NULL if it can't be read, or there is no memory. */
static uint8_t *read_all(FILE *file, size_t *len) {
    uint8_t *text = NULL;
    size_t room = 0;
    for (*len = 0; !feof(file);) {
        if (*len == room) {
            uint8_t *larger = (uint8_t *)realloc(text, room = 2 * room + 4096);
            if (!larger) {
                break;
            }
            text = larger;
        }
        *len += fread(text + *len, 1, room - *len, file);
        if (ferror(file)) {
            break;
        }
    }
    if (feof(file)) {
        return text;
    }
    free(text);
    return NULL;
}

int main(void) {
    static saphyr_parser parser; /* Zeroed, as what is static is. */
    static saphyr_event event;
    size_t len;
    uint8_t *text = read_all(stdin, &len);
    if (!text || saphyr_version() != SAPHYR_VERSION) {
        fputs(text ? "the library has another version than its header\n" : "can't read the text\n", stderr);
        return 2;
    }
    int32_t status = saphyr_new(text, len, false, &parser);
    if (status == SAPHYR_OK) {
        while ((status = saphyr_next(&parser, &event)) == SAPHYR_EVENT) {
            print_event(&event);
        }
    }
    if (status == SAPHYR_REFUSED) {
        fprintf(stderr, "%zu:%zu: %.*s\n", event.start.line, event.start.col + 1, (int)event.value.len,
                (const char *)event.value.at);
    } else if (status < 0) {
        fprintf(stderr, "%s\n", saphyr_status_text(status));
    }
    saphyr_free(&parser);
    free(text);
    return status == SAPHYR_END ? 0 : 1;
}
