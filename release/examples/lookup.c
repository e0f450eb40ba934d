/*
 * Prints the scalar at a path of keys in a YAML text, as `./lookup services db image < FILE`. A key that isn't in a
 * mapping is looked for in those that its keys `<<` name, as in YAML 1.1. An alias stands for the node that it names.
 *
 *     cc -IRELEASE/include lookup.c RELEASE/lib/libsaphyr_parser.a -o lookup
 *     ./lookup KEY.. < FILE
 */
#include <saphyr_parser.h>
#include <stdio.h>
#include <stdlib.h>
#include <string.h>

enum { MOST_NODES = 1000000, DEEPEST = 100 };

/* Mappings, in the order in which a key is looked for in them. */
struct merge {
    saphyr_node *mappings;
    size_t count;
};

static saphyr_parser trees; /* Zeroed, as what is static is. */
static saphyr_event event;

/* Whether a key is `<<`, without quotes and without a tag. */
static bool is_merge(saphyr_node key) {
    saphyr_describe(&trees, saphyr_follow(&trees, key), &event);
    return event.kind == SAPHYR_SCALAR && event.style == SAPHYR_PLAIN && !event.has_tag && event.value.len == 2 &&
           !memcmp(event.value.at, "<<", 2);
}

static void merge_one(struct merge *merge, saphyr_node mapping);

/* Merges what a key `<<` names: a mapping, or a sequence of mappings. */
static void merge_named(struct merge *merge, saphyr_node named) {
    named = saphyr_follow(&trees, named);
    saphyr_describe(&trees, named, &event);
    if (event.kind == SAPHYR_SEQUENCE_START) {
        for (size_t at = 0; at < saphyr_count(&trees, named); at++) {
            merge_one(merge, saphyr_follow(&trees, saphyr_item(&trees, named, at)));
        }
    } else {
        merge_one(merge, named);
    }
}

/* Merges a mapping that isn't merged yet, and then what its keys `<<` name. So this ends where a mapping is merged into
   itself. */
static void merge_one(struct merge *merge, saphyr_node mapping) {
    for (size_t at = 0; at < merge->count; at++) {
        if (merge->mappings[at] == mapping) {
            return;
        }
    }
    saphyr_node *longer = (saphyr_node *)realloc(merge->mappings, (merge->count + 1) * sizeof mapping);
    if (!longer) {
        fputs("out of memory\n", stderr);
        exit(2);
    }
    merge->mappings = longer;
    longer[merge->count++] = mapping;
    for (size_t at = 0; at < saphyr_count(&trees, mapping); at++) {
        saphyr_node key = saphyr_key(&trees, mapping, at);
        if (is_merge(key)) {
            merge_named(merge, saphyr_value(&trees, mapping, at));
        }
    }
}

/* The value of a key in a mapping, or in those that are merged into it. */
static saphyr_node merged_get(saphyr_node mapping, const char *key) {
    struct merge merge = {NULL, 0};
    saphyr_node found = SAPHYR_NO_NODE;
    merge_one(&merge, saphyr_follow(&trees, mapping));
    for (size_t at = 0; at < merge.count && found == SAPHYR_NO_NODE; at++) {
        found = saphyr_get(&trees, merge.mappings[at], key, strlen(key));
    }
    free(merge.mappings);
    return found;
}

/* Reads a file to its end. NULL if it can't be read, or there is no memory. */
static uint8_t *read_all(FILE *file, size_t *len) {
    uint8_t *text = NULL;
    size_t room = 0;
    for (*len = 0; !feof(file);) {
        if (*len == room) {
            uint8_t *larger = (uint8_t *)realloc(text, room = 2 * room + 4096);
            if (!larger) {
                break;
            }
            text = larger;
        }
        *len += fread(text + *len, 1, room - *len, file);
        if (ferror(file)) {
            break;
        }
    }
    if (feof(file)) {
        return text;
    }
    free(text);
    return NULL;
}

/* Says why there are no trees. */
static int refuse(int32_t status) {
    if (event.start.line) {
        fprintf(stderr, "%zu:%zu: ", event.start.line, event.start.col + 1);
    }
    if (status == SAPHYR_REFUSED) {
        fprintf(stderr, "%.*s\n", (int)event.value.len, (const char *)event.value.at);
    } else {
        fprintf(stderr, "%s\n", saphyr_status_text(status));
    }
    return 1;
}

int main(int count, char **keys) {
    size_t len;
    uint8_t *text = read_all(stdin, &len);
    if (!text) {
        fputs("can't read the text\n", stderr);
        return 2;
    }
    int32_t status = saphyr_new(text, len, false, &trees);
    if (status == SAPHYR_OK) {
        status = saphyr_load(&trees, MOST_NODES, DEEPEST, &event);
    }
    int failed = status == SAPHYR_OK ? 0 : refuse(status);
    saphyr_node node = saphyr_root(&trees, 0);
    for (int at = 1; at < count; at++) {
        node = merged_get(node, keys[at]);
    }
    saphyr_describe(&trees, saphyr_follow(&trees, node), &event);
    if (!failed && event.kind != SAPHYR_SCALAR) {
        fputs("no scalar is there\n", stderr);
        failed = 1;
    } else if (!failed) {
        printf("%.*s\n", (int)event.value.len, (const char *)event.value.at);
    }
    saphyr_free(&trees);
    free(text);
    return failed;
}
