/*
 * Reads texts from standard input, and parses each with every request for memory refused in turn: as a whole if COUNT
 * is 0, otherwise in pieces of COUNT bytes. Now and then the next event is peeked, the parser cloned, and a piece added
 * before it is needed. Events are those of the first run, in which nothing is refused, up to where a call says that
 * there is no memory; nothing follows that, and nothing is left out without it. A whole text is also tested for YAML
 * 1.2.2 so. All memory is to be freed.
 *
 *     refusals COUNT
 *
 * A text comes as for `pieces`. Prints what is wrong, and at last how many requests were refused. It is linked with
 * --wrap for malloc, realloc and free.
 */
#include "printing.h"

void *__real_malloc(size_t count);
void *__real_realloc(void *block, size_t count);
void __real_free(void *block);

/* How many requests are granted before the refused one, -1 where none is refused; and how many blocks aren't freed. */
static long granted = -1, blocks;
static bool was_refused;

static bool is_refused(void) {
    if (granted < 0 || granted-- > 0) {
        return false;
    }
    was_refused = true;
    return true;
}

void *__wrap_malloc(size_t count) {
    void *block = is_refused() ? NULL : __real_malloc(count);
    blocks += block != NULL;
    return block;
}

void *__wrap_realloc(void *block, size_t count) {
    void *moved = is_refused() ? NULL : __real_realloc(block, count);
    blocks += moved != NULL && !block;
    return moved;
}

void __wrap_free(void *block) {
    blocks -= block != NULL;
    __real_free(block);
}

/* A text, which of them it is, how it is parsed, and what is wrong. */
static struct {
    const uint8_t *text;
    size_t len, added, count;
    long number;
    const char *wrong;
} now;

static void expect(bool holds, const char *said) {
    if (!holds && !now.wrong) {
        now.wrong = said;
    }
}

/* The answer of a call as a line, which is kept in `into`. */
static void note_answer(struct printer *into, int32_t status, const saphyr_event *event) {
    into->used = 0;
    print_number(into, "", (size_t)(status + 10));
    print_number(into, " ", event->start.index);
    print_number(into, " ", event->end.index);
    print_byte(into, ' ');
    print_event(into, event);
    if (status == SAPHYR_REFUSED) {
        print_text(into, event->value);
    }
    print_byte(into, '\n');
}

static bool is_same(const struct printer *one, const struct printer *other) {
    return one->used == other->used && !memcmp(one->bytes, other->bytes, one->used);
}

static int32_t add(saphyr_parser *parser) {
    size_t left = now.len - now.added, piece = left < now.count ? left : now.count;
    int32_t status = saphyr_add(parser, now.text + now.added, piece);
    if (status == SAPHYR_OK) {
        now.added += piece;
    }
    return status;
}

/* Nothing is left, whatever is added. */
static void ends(saphyr_parser *parser) {
    saphyr_event event = {0};
    expect(saphyr_next(parser, &event) == SAPHYR_END, "something follows a want of memory");
    int32_t status = saphyr_add(parser, (const uint8_t *)"\n--- a\n", 7);
    expect(status == SAPHYR_OK || status == SAPHYR_WHOLE || status == SAPHYR_NOT_UTF8, "what is added then");
    expect(saphyr_peek(parser, &event) == SAPHYR_END, "something is shown behind a want of memory");
    expect(saphyr_next(parser, &event) == SAPHYR_END, "something follows what is added after a want of memory");
}

/* A clone gives what the parser has shown, or it is empty. */
static void clones(saphyr_parser *parser, const struct printer *shown) {
    static struct printer line;
    saphyr_parser copy = {0};
    saphyr_event event = {0};
    bool refused_before = was_refused;
    int32_t status = saphyr_clone(parser, &copy);
    if (status == SAPHYR_OK) {
        status = saphyr_next(&copy, &event);
        note_answer(&line, status, &event);
        expect(is_same(&line, shown) || (status == SAPHYR_NO_MEMORY && was_refused > refused_before), "a clone");
        if (status == SAPHYR_NO_MEMORY) {
            ends(&copy);
        }
    } else {
        expect(status == SAPHYR_NO_MEMORY && was_refused > refused_before, "no clone");
        expect(saphyr_next(&copy, &event) == SAPHYR_NO_PARSER, "a clone for which there is no memory");
    }
    saphyr_free(&copy);
}

/* Hands out the next event, which is peeked before; in between the parser is cloned, and a piece is added. Whether that
   was lost is put into `lost`. A refusal of a whole text is copied when it is handed out. */
static int32_t next_as_shown(saphyr_parser *parser, saphyr_event *event, bool *lost) {
    static struct printer shown, again;
    int32_t status = saphyr_peek(parser, event);
    note_answer(&shown, status, event);
    if (status == SAPHYR_MORE) {
        return status;
    }
    clones(parser, &shown);
    if (!*lost && now.count > 0 && now.added < now.len) {
        *lost = add(parser) == SAPHYR_NO_MEMORY;
    }
    expect(saphyr_peek(parser, event) == status, "another event is shown");
    bool is_refusal = status == SAPHYR_REFUSED && now.count == 0, refused_before = was_refused;
    status = saphyr_next(parser, event);
    note_answer(&again, status, event);
    bool has_no_copy = is_refusal && status == SAPHYR_NO_MEMORY && was_refused > refused_before;
    expect(is_same(&shown, &again) || has_no_copy, "what was shown is not handed out");
    return status;
}

static int32_t make(bool keep_tags, saphyr_parser *parser) {
    return now.count ? saphyr_new_pieces(keep_tags, 0, 0, parser) : saphyr_new(now.text, now.len, keep_tags, parser);
}

/* Parses the text, and writes its events. Whether all of them came. */
static bool parses(bool keep_tags, FILE *events) {
    static struct printer line;
    saphyr_parser parser = {0};
    saphyr_event event = {0};
    bool lost = false, is_whole = false;
    int32_t status = make(keep_tags, &parser);
    if (status == SAPHYR_NO_MEMORY) {
        expect(saphyr_next(&parser, &event) == SAPHYR_NO_PARSER, "a parser for which there is no memory");
        status = make(keep_tags, &parser);
    }
    for (size_t calls = 0; status != SAPHYR_NO_MEMORY && !is_whole && !now.wrong; calls++) {
        status = calls % 3 == 1 ? next_as_shown(&parser, &event, &lost) : saphyr_next(&parser, &event);
        if (status == SAPHYR_MORE) {
            expect(!lost, "more of a text that is lost is wanted");
            int32_t added = add(&parser);
            lost = added == SAPHYR_NO_MEMORY;
            expect(added == SAPHYR_OK || lost, "a piece isn't added");
        } else if (status != SAPHYR_NO_MEMORY) {
            note_answer(&line, status, &event);
            fwrite(line.bytes, 1, line.used, events);
            is_whole = status != SAPHYR_EVENT;
        }
    }
    expect(is_whole || was_refused, "there is memory");
    expect(!lost || add(&parser) == SAPHYR_WHOLE, "more of a text that is lost is added");
    ends(&parser);
    saphyr_free(&parser);
    return is_whole;
}

/* A run in which the request of that number is refused, from 0, or none; its events are put into `events`. */
static bool runs(long number, bool keep_tags, char **events, size_t *len) {
    FILE *file = open_memstream(events, len);
    granted = number;
    was_refused = false;
    now.added = 0;
    bool is_whole = parses(keep_tags, file);
    granted = -1;
    fclose(file);
    expect(blocks == 0, "memory is lost");
    return is_whole;
}

/* Prints what is wrong, and at which request. */
static void tell(long number) {
    if (now.wrong) {
        printf("text %ld, request %ld: %s\n", now.number, number + 1, now.wrong);
    }
}

/* Refuses each request in turn. How many there are. */
static long sweeps(bool keep_tags) {
    char *all, *some;
    size_t len, part;
    long number = 0;
    runs(-1, keep_tags, &all, &len);
    while (!now.wrong) {
        bool is_whole = runs(number, keep_tags, &some, &part);
        expect(is_whole ? part == len : part <= len, "how many events there are");
        expect(part <= len && !memcmp(some, all, part), "other events");
        __real_free(some);
        if (!was_refused) {
            break;
        }
        number++;
    }
    tell(number);
    __real_free(all);
    return number;
}

/* Refuses each request in turn where the text is tested for YAML 1.2.2. How many there are. */
static long checks(void) {
    saphyr_deviation deviation = {0};
    int32_t wanted = saphyr_check_standard(now.text, now.len, &deviation);
    long number = 0;
    while (!now.wrong) {
        granted = number;
        was_refused = false;
        int32_t status = saphyr_check_standard(now.text, now.len, &deviation);
        granted = -1;
        expect(status == wanted || (status == SAPHYR_NO_MEMORY && was_refused), "whether it is YAML 1.2.2");
        expect(blocks == 0, "memory is lost by that test");
        if (!was_refused) {
            break;
        }
        number++;
    }
    tell(number);
    return number;
}

int main(int argc, char **argv) {
    size_t len, count = argc == 2 ? strtoul(argv[1], NULL, 10) : 1;
    int keep_tags;
    long refused = 0;
    while (scanf("%d %zu", &keep_tags, &len) == 2 && getchar() == '\n') {
        uint8_t *text = __real_malloc(len + 1);
        if (!text || fread(text, 1, len, stdin) != len) {
            return 2;
        }
        now.text = text;
        now.len = len;
        now.count = count;
        now.number++;
        now.wrong = NULL;
        refused += sweeps(keep_tags == 1);
        refused += count || now.wrong ? 0 : checks();
        __real_free(text);
    }
    printf("%ld\n", refused);
    return 0;
}
