/* Prints the line of an event as `dump_events` does, and reads whole files. */
#ifndef PRINTING_H
#define PRINTING_H

#include "saphyr_parser.h"

#include <stdio.h>
#include <stdlib.h>
#include <string.h>

/* Lines on their way to a file. The first `used` bytes are not written yet. */
struct printer {
    FILE *file;
    size_t used;
    char bytes[1 << 16];
};

/* The longest piece that is put into a printer's bytes at once. */
enum { PIECE = 1 << 14 };

static inline void flush(struct printer *out) {
    fwrite(out->bytes, 1, out->used, out->file);
    out->used = 0;
}

static inline void make_room(struct printer *out, size_t len) {
    if (sizeof out->bytes - out->used < len) {
        flush(out);
    }
}

static inline void print_bytes(struct printer *out, const void *bytes, size_t len) {
    const char *at = bytes;
    while (len > 0) {
        size_t piece = len < PIECE ? len : PIECE;
        make_room(out, piece);
        memcpy(out->bytes + out->used, at, piece);
        out->used += piece;
        at += piece;
        len -= piece;
    }
}

static inline void print_text(struct printer *out, saphyr_text text) {
    print_bytes(out, text.at, text.len);
}

static inline void print_name(struct printer *out, const char name[5]) {
    make_room(out, 4);
    memcpy(out->bytes + out->used, name, 4);
    out->used += 4;
}

static inline void print_byte(struct printer *out, char byte) {
    make_room(out, 1);
    out->bytes[out->used++] = byte;
}

static inline void print_number(struct printer *out, const char *before, size_t number) {
    make_room(out, 64);
    out->used += (size_t)sprintf(out->bytes + out->used, "%s%zu", before, number);
}

/* The letter that follows the backslash in the escape of a byte, or 0 if the byte is printed as it is. */
static inline char escape_of(uint8_t byte) {
    switch (byte) {
    case '\\': return '\\';
    case '\n': return 'n';
    case '\r': return 'r';
    case '\t': return 't';
    case '\b': return 'b';
    default: return 0;
    }
}

/* Whether one of eight bytes may need an escape: it is less than a space, or a backslash. */
static inline bool may_need_escapes(uint64_t word) {
    const uint64_t each = UINT64_C(0x0101010101010101);
    uint64_t slashes = word ^ (each * '\\');
    uint64_t less = (word - each * ' ') & ~word, equal = (slashes - each) & ~slashes;
    return ((less | equal) & (each * 0x80)) != 0;
}

/* Spells a piece of a scalar's text, at most two bytes for each byte. Returns where the spelling ends. */
static inline char *spell(char *to, const uint8_t *at, const uint8_t *end) {
    while (at < end) {
        uint64_t word;
        if (end - at >= 8 && (memcpy(&word, at, 8), !may_need_escapes(word))) {
            memcpy(to, &word, 8);
            at += 8;
            to += 8;
            continue;
        }
        char escape = *at < ' ' || *at == '\\' ? escape_of(*at) : 0;
        if (escape) {
            *to++ = '\\';
        }
        *to++ = escape ? escape : (char)*at;
        at++;
    }
    return to;
}

static inline void print_escaped(struct printer *out, saphyr_text text) {
    const uint8_t *at = text.at;
    for (size_t left = text.len; left > 0;) {
        size_t piece = left < PIECE ? left : PIECE;
        make_room(out, 2 * piece);
        out->used = (size_t)(spell(out->bytes + out->used, at, at + piece) - out->bytes);
        at += piece;
        left -= piece;
    }
}

/* The name of an event, and the properties of its node. */
static inline void print_node(struct printer *out, const char name[5], const saphyr_event *event) {
    print_name(out, name);
    if (event->anchor != 0) {
        print_number(out, " &", event->anchor);
    }
    if (event->has_tag) {
        print_bytes(out, " <", 2);
        print_text(out, event->tag_handle);
        print_text(out, event->tag_suffix);
        print_byte(out, '>');
    }
}

/* The line of an event without its break. */
static inline void print_event(struct printer *out, const saphyr_event *event) {
    switch (event->kind) {
    case SAPHYR_STREAM_START: print_name(out, "+STR"); break;
    case SAPHYR_STREAM_END: print_name(out, "-STR"); break;
    case SAPHYR_DOCUMENT_START: print_name(out, "+DOC"); break;
    case SAPHYR_DOCUMENT_END: print_name(out, "-DOC"); break;
    case SAPHYR_ALIAS: print_number(out, "=ALI *", event->anchor); break;
    case SAPHYR_SEQUENCE_START: print_node(out, "+SEQ", event); break;
    case SAPHYR_SEQUENCE_END: print_name(out, "-SEQ"); break;
    case SAPHYR_MAPPING_START: print_node(out, "+MAP", event); break;
    case SAPHYR_MAPPING_END: print_name(out, "-MAP"); break;
    case SAPHYR_SCALAR:
        print_node(out, "=VAL", event);
        print_byte(out, ' ');
        print_byte(out, ":'\"|>"[event->style]);
        print_escaped(out, event->value);
        break;
    }
}

/* The line of a fault without its break. */
static inline void print_fault(FILE *out, const saphyr_event *fault) {
    const saphyr_marker *at = &fault->start;
    fwrite(fault->value.at, 1, fault->value.len, out);
    fprintf(out, " at byte %zu line %zu column %zu", at->index, at->line, at->col + 1);
}

/* All bytes of a file, and how many there are; or NULL if there is no memory for them. */
static inline uint8_t *read_all(FILE *file, size_t *len) {
    size_t room = 1 << 16, got;
    uint8_t *text = malloc(room);
    *len = 0;
    while (text && (got = fread(text + *len, 1, room - *len, file)) > 0) {
        *len += got;
        if (*len == room) {
            uint8_t *more = realloc(text, room *= 2);
            if (!more) {
                free(text);
            }
            text = more;
        }
    }
    return text;
}

#endif
