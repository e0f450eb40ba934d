/*
 * Prints each scalar of a YAML text: its path, its text and its place, as `.ports[0] = 80 (2:9)`. An alias stands for
 * the node that it names.
 *
 *     cc -IRELEASE/include config.c RELEASE/lib/libsaphyr_parser.a -o config
 *     ./config < FILE
 */
#include <saphyr_parser.h>
#include <stdio.h>
#include <stdlib.h>

/* How many nodes there may be, also once each alias is a copy of its node; and how many collections in each other. */
enum { MOST_NODES = 1000000, DEEPEST = 100 };

/* The last step of a path, by a key or by an index, and the path before it. */
struct path {
    const struct path *before;
    saphyr_text key;
    size_t index;
};

static saphyr_parser trees; /* Zeroed, as what is static is. */
static saphyr_event event;

static void print_path(const struct path *path) {
    if (path) {
        print_path(path->before);
        if (path->key.at) {
            printf(".%.*s", (int)path->key.len, (const char *)path->key.at);
        } else {
            printf("[%zu]", path->index);
        }
    }
}

/* Follows aliases, and ends since the nodes were counted with each alias as a copy. */
static void print(saphyr_node node, const struct path *path) {
    node = saphyr_follow(&trees, node);
    saphyr_describe(&trees, node, &event);
    if (event.kind == SAPHYR_SCALAR) {
        print_path(path);
        printf(" = %.*s", (int)event.value.len, (const char *)event.value.at);
        printf(" (%zu:%zu)\n", event.start.line, event.start.col + 1);
    }
    for (size_t index = 0; index < saphyr_count(&trees, node); index++) {
        saphyr_node value = saphyr_value(&trees, node, index);
        saphyr_describe(&trees, saphyr_follow(&trees, saphyr_key(&trees, node, index)), &event);
        struct path longer = {path, event.value, index};
        print(value == SAPHYR_NO_NODE ? saphyr_item(&trees, node, index) : value, &longer);
    }
}

/* Reads a file to its end. NULL if it can't be read, or there is no memory. */
static uint8_t *read_all(FILE *file, size_t *len) {
    uint8_t *text = NULL;
    size_t room = 0;
    for (*len = 0; !feof(file);) {
        if (*len == room) {
            uint8_t *larger = (uint8_t *)realloc(text, room = 2 * room + 4096);
            if (!larger) {
                break;
            }
            text = larger;
        }
        *len += fread(text + *len, 1, room - *len, file);
        if (ferror(file)) {
            break;
        }
    }
    if (feof(file)) {
        return text;
    }
    free(text);
    return NULL;
}

/* Says why there are no trees. */
static int refuse(int32_t status) {
    if (event.start.line) {
        fprintf(stderr, "%zu:%zu: ", event.start.line, event.start.col + 1);
    }
    if (status == SAPHYR_REFUSED) {
        fprintf(stderr, "%.*s\n", (int)event.value.len, (const char *)event.value.at);
    } else {
        fprintf(stderr, "%s\n", saphyr_status_text(status));
    }
    return 1;
}

int main(void) {
    size_t len;
    uint8_t *text = read_all(stdin, &len);
    if (!text) {
        fputs("can't read the text\n", stderr);
        return 2;
    }
    int32_t status = saphyr_new(text, len, false, &trees);
    if (status == SAPHYR_OK) {
        status = saphyr_load(&trees, MOST_NODES, DEEPEST, &event);
    }
    int failed = status == SAPHYR_OK ? 0 : refuse(status);
    /* A few lines of aliases may stand for more nodes than can be printed, or for nodes without end. */
    if (saphyr_expanded(&trees, 0) > MOST_NODES) {
        fputs("there are too many nodes once aliases are followed\n", stderr);
        failed = 1;
    } else {
        print(saphyr_root(&trees, 0), NULL);
    }
    saphyr_free(&trees);
    free(text);
    return failed;
}
