/*
 * A proved parser of YAML 1.2 into events, for C.
 *
 *     saphyr_parser parser = {0};
 *     saphyr_event event = {0};
 *     int32_t status = saphyr_new(text, len, false, &parser);
 *     if (status == SAPHYR_OK)
 *         while ((status = saphyr_next(&parser, &event)) == SAPHYR_EVENT) {
 *             ... event.kind ...
 *         }
 *     if (status == SAPHYR_REFUSED) {
 *         ... event.value says why, event.start says where ...
 *     }
 *     saphyr_free(&parser);
 *
 * A text that comes in pieces, from a pipe for example:
 *
 *     int32_t status = saphyr_new_pieces(false, 0, 0, &parser);
 *     while (status >= 0 && (status = saphyr_next(&parser, &event)) > 0)
 *         if (status == SAPHYR_MORE)
 *             status = saphyr_add(&parser, bytes, fread(bytes, 1, sizeof bytes, file));
 *         else
 *             ... event.kind ...
 *
 * The trees of a text. A node is a number, and a number that no node has leads nowhere, so calls can be nested:
 *
 *     saphyr_new(text, len, false, &parser);
 *     if (saphyr_load(&parser, 100000, 100, &event) == SAPHYR_OK) {
 *         saphyr_node port = saphyr_get(&parser, saphyr_root(&parser, 0), "port", 4);
 *         if (saphyr_describe(&parser, port, &event) == SAPHYR_EVENT)
 *             ... event.value is the port, and event.start its place ...
 *     }
 *
 * Of a text of many documents, one after the other:
 *
 *     while ((status = saphyr_load_next(&parser, 100000, 100, &event)) == SAPHYR_LOADED)
 *         ... saphyr_root(&parser, 0) is the root ...
 *
 * Of such a text in pieces, where SAPHYR_MORE asks for those of a document that isn't all there:
 *
 *     while (status >= 0 && (status = saphyr_load_next(&parser, 100000, 100, &event)) > 0)
 *         if (status == SAPHYR_MORE)
 *             status = saphyr_add(&parser, bytes, fread(bytes, 1, sizeof bytes, file));
 *         else
 *             ... saphyr_root(&parser, 0) is the root ...
 *
 * Whether a text is YAML 1.2.2, which needs no parser:
 *
 *     saphyr_deviation deviation = {0};
 *     if (saphyr_check_standard(text, len, &deviation) == SAPHYR_DEVIATES)
 *         ... deviation.rule is broken at deviation.place, and deviation.sentence is what it asks ...
 *
 * What the program check_yaml finds in a text:
 *
 *     saphyr_findings findings = {0};
 *     saphyr_finding finding = {0}, note = {0};
 *     saphyr_check(text, len, NULL, &findings);
 *     while (saphyr_next_finding(&findings, &finding) == SAPHYR_FINDING) {
 *         ... finding.message says what is wrong at finding.start ...
 *         while (saphyr_next_note(&findings, &note) == SAPHYR_FINDING)
 *             ... note.message says more of it ...
 *     }
 *     saphyr_free_findings(&findings);
 *
 * What the caller must do. Nothing checks these rules, and all that the library promises depends on them:
 *
 *  - Zero each structure, as by {0}, and in C++ by {}, before you first pass it to a call.
 *  - Pass no NULL, but for bytes of which there are 0, for options, and to saphyr_free and saphyr_free_findings. The
 *    pointer of a text may be read for the text's length. No two pointers of one call point to the same memory.
 *  - Change a saphyr_parser and a saphyr_findings only by these calls. Don't copy them as structs: saphyr_clone makes a
 *    copy of a parser.
 *  - Use each structure in one call at a time. Between calls a saphyr_parser and a saphyr_findings may go from one
 *    thread to another, if a lock or the thread's start or end orders the calls.
 *  - Keep the text where it is, unchanged, until every parser over it is freed: that of saphyr_new or saphyr_new_utf8,
 *    and its clones. The bytes that saphyr_add and saphyr_add_utf8 were given are copied.
 *  - Give saphyr_new_utf8 only a text in UTF-8, and saphyr_add_utf8 only whole characters of one.
 *  - malloc, realloc and free belong to one allocator. Make no call from a signal handler, or from the forked
 *    child of a process with threads.
 *
 * What the library does. The texts of an event may be read until the next call with the same parser, and no longer; so
 * may the message of a finding or a note until the next call with the same saphyr_findings. The name of its rule is the
 * library's own, and may be read as long as the program runs.
 * Those that saphyr_describe gave may be read until saphyr_load, saphyr_load_next or saphyr_free gets the parser, or a
 * call that makes another parser in its handle. For saphyr_next the contract says that the addresses are those of
 * memory that the parser keeps until then. Only the code shows the same of saphyr_peek and saphyr_describe, and that no
 * call in between writes there.
 */
#ifndef SAPHYR_PARSER_H
#define SAPHYR_PARSER_H

#include <stdbool.h>
#include <stddef.h>
#include <stdint.h>

#ifdef __cplusplus
extern "C" {
#endif

/* The version of these declarations, which saphyr_version returns: 1,000,000 times the major number, plus 1,000 times
   the minor one, plus that of the patch. The shared library's name ends with it. */
#define SAPHYR_VERSION 3001u

/* The release that this header came with. Before the `+` is the version of the Rust crate whose events these are. */
#define SAPHYR_PARSER_VERSION "0.3.3+rattle.4"

/* What a call returns. Below 0, the call failed. */
enum saphyr_status {
    /* saphyr_new, saphyr_new_utf8, saphyr_new_pieces, saphyr_add, saphyr_add_utf8, saphyr_clone, saphyr_keep_tags,
       saphyr_load: done. saphyr_check_standard: the text is YAML 1.2.2. saphyr_check: it has no error and, if the
       options are strict, no warning. */
    SAPHYR_OK = 0,
    /* saphyr_next, saphyr_peek: no event is left. The end of the stream or a fault was handed out before.
       saphyr_load_next: no document is left. saphyr_describe: there is no node with this number.
       saphyr_next_finding: no finding is left. saphyr_next_note: no note on the last finding is. */
    SAPHYR_END = 0,
    /* saphyr_next, saphyr_peek, saphyr_describe: the event is written. */
    SAPHYR_EVENT = 1,
    /* saphyr_next, saphyr_peek, of a text that comes in pieces: as far as the parser has looked, bytes that did not
       come may change the next event. No event is written, but `start` says where the last one ends. saphyr_load_next:
       the same, where the next document is not all there. */
    SAPHYR_MORE = 2,
    /* saphyr_load_next: the next document is loaded. */
    SAPHYR_LOADED = 3,
    /* saphyr_check_standard: the parser reads the text, but it is not YAML 1.2.2. */
    SAPHYR_DEVIATES = 4,
    /* saphyr_next_finding, saphyr_next_note: the finding or the note is written. */
    SAPHYR_FINDING = 5,
    /* saphyr_check: the text has an error or, if the options are strict, a warning. */
    SAPHYR_WRONG = 6,
    /* saphyr_next, saphyr_peek, saphyr_load, saphyr_load_next: the text is refused. `value` says why, and `start`
       where. No event follows. saphyr_check_standard: the parser refuses the text. `place` says where. */
    SAPHYR_REFUSED = -1,
    /* Out of memory. From saphyr_next and saphyr_peek: no event follows, whatever is added. From saphyr_add: the text
       is lost, and saphyr_next says so too. From saphyr_new, saphyr_new_pieces and saphyr_clone: no parser is made.
       From saphyr_load and saphyr_load_next: there are no trees. From saphyr_check_standard and saphyr_check: there is
       no answer. From saphyr_next_finding and saphyr_next_note: nothing is handed out. The next call tries it again. */
    SAPHYR_NO_MEMORY = -2,
    /* saphyr_new, saphyr_check_standard: the text is not UTF-8. saphyr_valid_up_to returns the index of the first wrong
       byte. saphyr_add: the bytes, behind those that came before, are not, whatever follows; or the text ends inside a
       character. Nothing is added. */
    SAPHYR_NOT_UTF8 = -3,
    /* The handle is empty: no parser was made in it, or it was freed. */
    SAPHYR_NO_PARSER = -4,
    /* saphyr_new, saphyr_check_standard: the text is not UTF-8, and begins with the byte order mark of UTF-16: FE FF,
       or FF FE without two bytes of 0 after it. With these it is that of UTF-32. saphyr_add: the text's first bytes,
       all in this call, begin so. Nothing is added. */
    SAPHYR_UTF16 = -5,
    /* saphyr_add: all of the text is there already, since saphyr_new or saphyr_new_utf8 was given it or its end was
       told; or saphyr_add ran out of memory before. Nothing is added. */
    SAPHYR_WHOLE = -6,
    /* saphyr_next, saphyr_peek, saphyr_load_next: as SAPHYR_MORE, but more bytes wait for the next event than
       saphyr_new_pieces was told that may. What waits is behind `start`. Nothing that came is lost: the rest is given
       if the end of the text is told. Only tested: that it comes only where no event can be told. */
    SAPHYR_TOO_MUCH = -7,
    /* saphyr_load, saphyr_load_next: the trees would have more nodes than allowed, or be deeper. `start` says where. */
    SAPHYR_TOO_LARGE = -8,
    /* saphyr_load: the parser has handed out events already, or its text comes in pieces. saphyr_load_next: the parser
       is inside a document of which the call has not taken each event so far. */
    SAPHYR_LATE = -9,
    /* saphyr_next_finding, saphyr_next_note: the handle is empty, as no text was checked or it was freed. */
    SAPHYR_NOT_CHECKED = -10,
    /* saphyr_next, saphyr_peek, saphyr_load, saphyr_load_next: in place of SAPHYR_REFUSED, if the text has more
       characters than saphyr_new_pieces was told that it may, or more than 4,294,967,295. `value` names these, whatever
       the limit. */
    SAPHYR_TOO_LONG = -11
};

/* How bad a finding is. */
enum saphyr_severity {
    SAPHYR_ERROR = 1,
    SAPHYR_WARNING = 2,
    /* It says more of an error, or how many warnings are left out. */
    SAPHYR_NOTE = 3
};

/* What happens in the text. */
enum saphyr_kind {
    /* No event: the call gave none. */
    SAPHYR_NOTHING = 0,
    /* The first event of a text. */
    SAPHYR_STREAM_START = 1,
    /* The last event of a text. */
    SAPHYR_STREAM_END = 2,
    /* A document begins. `is_explicit` says whether by a `---`. */
    SAPHYR_DOCUMENT_START = 3,
    /* A document ends. */
    SAPHYR_DOCUMENT_END = 4,
    /* An alias: it means the node whose anchor has the id `anchor`. */
    SAPHYR_ALIAS = 5,
    /* A scalar: `value`, `style`, `anchor`, and its tag. */
    SAPHYR_SCALAR = 6,
    /* A sequence begins: `anchor`, and its tag. */
    SAPHYR_SEQUENCE_START = 7,
    /* The innermost sequence ends. */
    SAPHYR_SEQUENCE_END = 8,
    /* A mapping begins: `anchor`, and its tag. Its entries are keys and values in turn. */
    SAPHYR_MAPPING_START = 9,
    /* The innermost mapping ends. */
    SAPHYR_MAPPING_END = 10
};

/* How a scalar is written. */
enum saphyr_style {
    /* Without quotes. */
    SAPHYR_PLAIN = 0,
    /* Between single quotes. */
    SAPHYR_SINGLE_QUOTED = 1,
    /* Between double quotes. */
    SAPHYR_DOUBLE_QUOTED = 2,
    /* Lines after `|`, whose breaks are kept. */
    SAPHYR_LITERAL = 3,
    /* Lines after `>`, which are folded. */
    SAPHYR_FOLDED = 4
};

/* A handle: a parser of one text, or none. Start with {0}. */
typedef struct saphyr_parser {
    /* The library's own. NULL if there is no parser. */
    void *at;
} saphyr_parser;

/* Bytes in UTF-8. They may contain NUL, and no NUL follows them. */
typedef struct saphyr_text {
    /* The first byte, or NULL if there is no text. An empty text has an address too, which must not be read. */
    const uint8_t *at;
    /* How many bytes there are. */
    size_t len;
} saphyr_text;

/* A place in the text. */
typedef struct saphyr_marker {
    /* How many characters of the text are before it. A character may have several bytes. */
    size_t index;
    /* Its line, counted from 1. */
    size_t line;
    /* How many characters of its line are before it. */
    size_t col;
} saphyr_marker;

/* An event, or a fault. Each call that takes one writes all of its fields, whatever it returns: 0 and NULL if a
   field does not belong to the kind. */
typedef struct saphyr_event {
    /* A saphyr_kind. */
    int32_t kind;
    /* A saphyr_style, of a scalar. */
    int32_t style;
    /* 1 if a document begins with a `---`, otherwise 0. */
    int32_t is_explicit;
    /* 1 if a scalar or a collection has a tag, otherwise 0. */
    int32_t has_tag;
    /* The id of the node's anchor, or 0 if it has none. Of an alias, the id of the anchor that it names. */
    size_t anchor;
    /* Where it begins. Of a fault, where it is. Where an event waits for more of the text, where the last one ends. */
    saphyr_marker start;
    /* Where its span ends. The span of a quoted scalar or a bracket includes the blanks and the comment after it: the
       page SPANS.md says what the span of each event covers. If there is no event, the start again. */
    saphyr_marker end;
    /* The value of a scalar: folded and unescaped. Of a fault, why the text is refused. */
    saphyr_text value;
    /* The prefix that the tag's handle means. It is empty for `!` and `!<uri>`. */
    saphyr_text tag_handle;
    /* The rest of the tag. */
    saphyr_text tag_suffix;
} saphyr_event;

/* Where a text departs from YAML 1.2.2. The call that takes one writes all of its fields, whatever it returns: 0 and
   NULL if a field does not belong to the answer. Its texts are the library's own: they may be read as long as the
   program runs, and nothing is to be freed. */
typedef struct saphyr_deviation {
    /* The first place that shows it. Of a text that is refused, where the fault is. */
    saphyr_marker place;
    /* The name of the rule that is broken there, as `flow-indentation`. The page DEPARTURES.md has them. */
    saphyr_text rule;
    /* The production of the standard, and what it asks. */
    saphyr_text sentence;
} saphyr_deviation;

/* A handle: what was found in a text, or nothing. Start with {0}. */
typedef struct saphyr_findings {
    /* The library's own. NULL if no text was checked. */
    void *at;
} saphyr_findings;

/* How a text is checked, by the names of the options of check_yaml. All 0 are the options of a call without any, but
   that it prints at most 100 warnings. */
typedef struct saphyr_check_options {
    /* Also find where the text departs from YAML 1.2.2. */
    bool standard;
    /* Let a warning count as an error in what saphyr_check returns. */
    bool strict;
    /* Leave out the warnings of these rules. */
    struct {
        bool alias_in_itself, duplicate_key, empty_document, max_depth, max_nodes, wide_alias;
    } disable;
    /* Warn where more collections are open at once. 0 sets no limit. */
    size_t max_depth;
    /* Find at most so many warnings, and with `standard` so many places, and how many more there are of the warnings.
       0 sets no limit. */
    size_t max_findings;
    /* Warn of more nodes. 0 sets no limit. */
    size_t max_nodes;
} saphyr_check_options;

/* A finding, or a note on one. Each call that takes one writes all of its fields, whatever it returns: 0 and NULL if
   there is none. */
typedef struct saphyr_finding {
    /* A saphyr_severity. */
    int32_t severity;
    /* Where it is. */
    saphyr_marker start;
    /* Where that ends: of a warning, and of the note on those that are left out, the end of an event; else the start
       again. */
    saphyr_marker end;
    /* The name of the rule, as `duplicate-key`: `syntax` of a text that is refused, `encoding` of bytes that are not
       UTF-8. The page CHECK_YAML.md has them. */
    saphyr_text rule;
    /* What it says. */
    saphyr_text message;
} saphyr_finding;

/*
 * Makes a parser of the `len` bytes at `text`, and puts it into `parser`. Frees what `parser` held, whatever it
 * returns. With `keep_tags` the prefixes of tags that a document declares hold for later documents too; in YAML they
 * do not. A text of more than 4,294,967,295 characters is refused after these.
 *
 * Returns SAPHYR_OK; or SAPHYR_NOT_UTF8, SAPHYR_UTF16 or SAPHYR_NO_MEMORY, and then `parser` is empty.
 */
int32_t saphyr_new(const uint8_t *text, size_t len, bool keep_tags, saphyr_parser *parser);

/*
 * The same of a text that you know to be UTF-8, for example since another library has tested it: it is not tested here.
 *
 * Returns SAPHYR_OK; or SAPHYR_NO_MEMORY, and then `parser` is empty.
 */
int32_t saphyr_new_utf8(const uint8_t *text, size_t len, bool keep_tags, saphyr_parser *parser);

/*
 * Makes a parser of a text that comes in pieces, of which nothing came yet, and puts it into `parser`. Frees what
 * `parser` held, whatever it returns. saphyr_add takes the next bytes. `keep_tags` is as for saphyr_new.
 *
 * The limits are for texts that you don't trust, and 0 sets none. Of a text of more than `most_characters` characters,
 * or of more than 4,294,967,295, saphyr_next returns SAPHYR_TOO_LONG: once the token that passes the limit has ended,
 * or with the text's end. If more than `most_waiting` bytes came of which no event can be told, as of a quote that is
 * not closed, it returns SAPHYR_TOO_MUCH.
 *
 * Returns SAPHYR_OK; or SAPHYR_NO_MEMORY, and then `parser` is empty.
 */
int32_t saphyr_new_pieces(bool keep_tags, size_t most_characters, size_t most_waiting, saphyr_parser *parser);

/*
 * Adds the next `len` bytes of a text that comes in pieces. They may be cut anywhere, even inside a character. The
 * events are those of all bytes, one behind the other, wherever they are cut. An event comes once no byte that may
 * follow changes it, also before its document has ended. While less than 256 bytes wait, the parser looks for that when
 * a line ends, a bracket closes or `---` comes; else when as many bytes came again as waited, and what waits may end in
 * them, so that a long scalar is not read again for each line. It also looks when eight times as many came, since a
 * fault may be inside, and as soon as more wait than may. The events of a collection in brackets at a document's root
 * come with its last bracket. The stream's start comes before the first bytes. Bytes that are not needed any more,
 * since the text is refused, are not parsed.
 *
 * A `len` of 0 says that no more come, with NULL or any other `bytes`: nothing can be added after it. So do not pass on
 * the 0 of a read that failed, or of one that has no bytes yet.
 *
 * Returns SAPHYR_OK; SAPHYR_NOT_UTF8, SAPHYR_UTF16, SAPHYR_WHOLE or SAPHYR_NO_PARSER, and then nothing is added, and
 * the parser stays as it was; or SAPHYR_NO_MEMORY. Then the text is lost, also what came of it before: saphyr_next
 * hands out what saphyr_peek showed last, if it was not handed out yet, then that fault, once, and nothing more.
 * saphyr_add returns SAPHYR_WHOLE from then on. Only a text that is refused needs no more bytes, and loses nothing.
 */
int32_t saphyr_add(saphyr_parser *parser, const uint8_t *bytes, size_t len);

/*
 * The same of bytes that you know to be whole characters in UTF-8, which are not tested here. Behind a character that
 * saphyr_add was given a part of they are not UTF-8, and this is told as there.
 */
int32_t saphyr_add_utf8(saphyr_parser *parser, const uint8_t *bytes, size_t len);

/*
 * Returns how many of the `len` bytes at `text` are UTF-8, from the front: `len` if all are, otherwise the index of
 * the first byte that is not.
 */
size_t saphyr_valid_up_to(const uint8_t *text, size_t len);

/*
 * Hands out the next event. If a fault ends the events, hands out that fault, once. After the end of the stream
 * or a fault nothing is left.
 *
 * Returns SAPHYR_EVENT, SAPHYR_END, SAPHYR_REFUSED, SAPHYR_NO_MEMORY or SAPHYR_NO_PARSER. If the text comes in pieces
 * and the next event waits for bytes that did not come, returns SAPHYR_MORE or, past the limit, SAPHYR_TOO_MUCH, and
 * the parser stays where it was. If saphyr_load_next waits for the rest of a document, an event that is handed out
 * here gives that document up.
 */
int32_t saphyr_next(saphyr_parser *parser, saphyr_event *event);

/*
 * Shows what saphyr_next hands out next, without handing it out. Until it is handed out, the same is shown again.
 *
 * Returns what saphyr_next returns. If that is SAPHYR_REFUSED, of a whole text, and there is no memory for a copy of
 * the refusal, saphyr_next then returns SAPHYR_NO_MEMORY.
 */
int32_t saphyr_peek(saphyr_parser *parser, saphyr_event *event);

/*
 * Makes an independent parser at the same place of the events, and puts it into `copy`. Frees what `copy` held,
 * whatever it returns. Advancing one does not move the other, and what saphyr_add gives one comes to no other. The
 * texts of the event that `parser` gave last must not be read any more, and the copy has given none.
 *
 * Returns SAPHYR_OK; or SAPHYR_NO_PARSER or SAPHYR_NO_MEMORY, and then `copy` is empty. `parser` stays as it was.
 */
int32_t saphyr_clone(saphyr_parser *parser, saphyr_parser *copy);

/*
 * Sets whether the prefixes of tags hold for later documents too. The setting takes effect from the next end of a
 * document that is read.
 *
 * Returns SAPHYR_OK or SAPHYR_NO_PARSER.
 */
int32_t saphyr_keep_tags(saphyr_parser *parser, bool keep_tags);

/* A node of the trees that a parser loaded, by its number. It is that node's until saphyr_load or saphyr_load_next is
   called again or the parser is freed. */
typedef size_t saphyr_node;

/* The number of no node. */
#define SAPHYR_NO_NODE SIZE_MAX

/*
 * Loads all documents of a parser as trees, which the parser keeps. It must have handed out no event; shown is allowed.
 * The trees may have `nodes` nodes in all, where an alias counts as one, and `depth` collections open at once. Trees
 * that were loaded before are freed, whatever it returns. Once the documents are loaded no event is left. A clone has
 * no trees. Of a text that comes in pieces saphyr_load_next loads one document after the other.
 *
 * Returns SAPHYR_OK; or SAPHYR_REFUSED, SAPHYR_TOO_LARGE, SAPHYR_NO_MEMORY, SAPHYR_LATE or SAPHYR_NO_PARSER, and then
 * there are no trees. `event` says why and where, and its text may be read until the next call with the parser. After
 * SAPHYR_TOO_LARGE the parser is behind the event that was too many.
 */
int32_t saphyr_load(saphyr_parser *parser, size_t nodes, size_t depth, saphyr_event *event);

/*
 * Loads the next document of a parser as a tree, which the parser keeps, so that a text of many documents takes the
 * memory of one. The parser is before all events, or between documents: where saphyr_next would hand out the start of
 * the stream, the start of a document or the end of the stream, or nothing is left. The limits are those of
 * saphyr_load, for this document alone. What was loaded before is freed, whatever it returns. The root is
 * saphyr_root(parser, 0).
 *
 * Of a text that comes in pieces it loads the document once saphyr_next could hand out its last event. Until then it
 * takes the events that come, keeps what they tell of the document, and returns SAPHYR_MORE or, past the limit on what
 * may wait, SAPHYR_TOO_MUCH. Only tested: that it waits only where saphyr_next would. `start` says where the last event
 * that came ends. Once more was added, or the end told, call it again: it goes on with the document, within the limits
 * of the call that took its first event, or the stream's start before that. In between, an event that saphyr_next hands
 * out gives the document up. A saphyr_next that hands out none does not, and saphyr_peek does not. A clone has nothing
 * of the tree.
 *
 * Returns SAPHYR_LOADED; or SAPHYR_END after the last document; or SAPHYR_MORE or SAPHYR_TOO_MUCH; or SAPHYR_REFUSED,
 * SAPHYR_TOO_LARGE, SAPHYR_NO_MEMORY, SAPHYR_LATE or SAPHYR_NO_PARSER, where `event` says why and where. If it is not
 * SAPHYR_LOADED there are no trees. After SAPHYR_TOO_LARGE the parser is behind the event that was too many, so inside
 * the document.
 */
int32_t saphyr_load_next(saphyr_parser *parser, size_t nodes, size_t depth, saphyr_event *event);

/* Returns the root of the document with this index, from 0, or SAPHYR_NO_NODE if there are fewer documents. */
saphyr_node saphyr_root(saphyr_parser *parser, size_t index);

/*
 * Returns how many nodes the document with this index has if each alias is a copy of its node: UINT64_MAX if there are
 * more, or if an alias is inside its own node. If there is no such document, returns 0. Nothing is copied.
 */
uint64_t saphyr_expanded(saphyr_parser *parser, size_t index);

/*
 * Tells what a node is, in the fields of its first event. So `kind` is SAPHYR_SCALAR, SAPHYR_SEQUENCE_START,
 * SAPHYR_MAPPING_START or SAPHYR_ALIAS, and `anchor` the id of an anchor. `start` and `end` are the places of the whole
 * node: a collection ends where the span of its last event does.
 *
 * Returns SAPHYR_EVENT; or SAPHYR_END or SAPHYR_NO_PARSER if there is no such node.
 */
int32_t saphyr_describe(saphyr_parser *parser, saphyr_node node, saphyr_event *event);

/* Returns how many items a sequence has, or how many pairs a mapping; of any other node 0. */
size_t saphyr_count(saphyr_parser *parser, saphyr_node node);

/* Returns the item of a sequence with this index, from 0, or SAPHYR_NO_NODE. */
saphyr_node saphyr_item(saphyr_parser *parser, saphyr_node node, size_t index);

/* Returns the key of the pair with this index, from 0, of a mapping, or SAPHYR_NO_NODE. */
saphyr_node saphyr_key(saphyr_parser *parser, saphyr_node node, size_t index);

/* Returns the value of the pair with this index, from 0, of a mapping, or SAPHYR_NO_NODE. */
saphyr_node saphyr_value(saphyr_parser *parser, saphyr_node node, size_t index);

/*
 * Returns the value in a mapping whose key is a scalar with the text of `len` bytes at `key`, whatever its style and
 * tag: the first if there are several, and SAPHYR_NO_NODE if there is none. An alias stands for the node that it names:
 * one that `node` is, and one that is a key. The value may be an alias. It looks at one key after the other.
 */
saphyr_node saphyr_get(saphyr_parser *parser, saphyr_node node, const char *key, size_t len);

/*
 * Of an alias, returns the node that it names, which is no alias; of any other node, the node itself; and
 * SAPHYR_NO_NODE if there is no node with this number. An alias may be inside the node that it names: saphyr_expanded
 * says how many nodes a walk meets that follows each alias.
 */
saphyr_node saphyr_follow(saphyr_parser *parser, saphyr_node node);

/*
 * Returns the node whose anchor has this id, so the one that an alias names, or SAPHYR_NO_NODE. An alias may be inside
 * the node that it names.
 */
saphyr_node saphyr_anchored(saphyr_parser *parser, size_t id);

/*
 * Says whether the `len` bytes at `text` are YAML 1.2.2. It needs no parser, and keeps nothing. Proved: SAPHYR_OK is
 * returned only if YAML's grammar derives the text, and each character is printable. That grammar leaves out three
 * rules. Tested: these are kept too, each text of YAML 1.2.2 gives SAPHYR_OK, and which rule is told where.
 *
 * Returns SAPHYR_OK; or SAPHYR_DEVIATES, and then `deviation` says where, which rule is broken, and what that asks; or
 * SAPHYR_REFUSED, and then `deviation` says where, and a parser of the text why; or SAPHYR_NOT_UTF8, SAPHYR_UTF16 or
 * SAPHYR_NO_MEMORY.
 */
int32_t saphyr_check_standard(const uint8_t *text, size_t len, saphyr_deviation *deviation);

/*
 * Checks the `len` bytes at `text`, as the program check_yaml does, and puts what is found into `findings`. Frees what
 * `findings` held, whatever it returns. Bytes that are not UTF-8 are a finding. The text is not needed after this call.
 * NULL for `options` sets none.
 *
 * Returns SAPHYR_OK if the text passes, or SAPHYR_WRONG; or SAPHYR_NO_MEMORY, and then `findings` is empty.
 */
int32_t saphyr_check(const uint8_t *text, size_t len, const saphyr_check_options *options, saphyr_findings *findings);

/*
 * Hands out the next finding: an error, a warning or, if some of these are left out, a note that says how many, in the
 * order of their places. The notes that were left on the finding before it are passed over.
 *
 * Returns SAPHYR_FINDING, SAPHYR_END, SAPHYR_NO_MEMORY or SAPHYR_NOT_CHECKED.
 */
int32_t saphyr_next_finding(saphyr_findings *findings, saphyr_finding *finding);

/*
 * Hands out the next note on the finding that was handed out last, such as what to write in place of an error, or the
 * words of the parser's fault. There may be none, and never more than two.
 *
 * Returns SAPHYR_FINDING, SAPHYR_END, SAPHYR_NO_MEMORY or SAPHYR_NOT_CHECKED.
 */
int32_t saphyr_next_note(saphyr_findings *findings, saphyr_finding *note);

/*
 * Frees what was found, and leaves the handle empty. Does nothing to an empty handle, and nothing if `findings` is
 * NULL.
 */
void saphyr_free_findings(saphyr_findings *findings);

/*
 * Frees the parser and the texts of its last event, and leaves the handle empty. Does nothing to an empty handle, and
 * nothing if `parser` is NULL.
 */
void saphyr_free(saphyr_parser *parser);

/*
 * Returns the version of the library. Do not use it with a header that has another SAPHYR_VERSION.
 */
uint32_t saphyr_version(void);

/*
 * Returns what a status means, in words that end in NUL. As SAPHYR_OK and SAPHYR_END are one number, so are their
 * words.
 */
static inline const char *saphyr_status_text(int32_t status) {
    switch (status) {
    case SAPHYR_OK: return "done, nothing is left, or the text is YAML 1.2.2 or passes";
    case SAPHYR_EVENT: return "an event";
    case SAPHYR_MORE: return "the next event waits for bytes that did not come";
    case SAPHYR_LOADED: return "the next document is loaded";
    case SAPHYR_DEVIATES: return "the text is read, and is not YAML 1.2.2";
    case SAPHYR_FINDING: return "a finding";
    case SAPHYR_WRONG: return "the text has an error, or a warning that counts as one";
    case SAPHYR_REFUSED: return "the text is refused";
    case SAPHYR_NO_MEMORY: return "out of memory";
    case SAPHYR_NOT_UTF8: return "the text is not UTF-8";
    case SAPHYR_NO_PARSER: return "there is no parser";
    case SAPHYR_UTF16: return "the text is UTF-16, and not UTF-8";
    case SAPHYR_WHOLE: return "all of the text is there already";
    case SAPHYR_TOO_MUCH: return "more bytes wait for the next event than may";
    case SAPHYR_TOO_LARGE: return "the trees would be larger than allowed";
    case SAPHYR_LATE: return "no trees begin where the parser is, or its text comes in pieces";
    case SAPHYR_NOT_CHECKED: return "no text is checked";
    case SAPHYR_TOO_LONG: return "the text has more characters than may";
    default: return "no status";
    }
}

/*
 * The library's own calls take no NULL. In C and C++ the compiler puts these functions into each call, and they pass on
 * another address in its place. A tool that reads this header to make the calls from another language defines
 * SAPHYR_NO_INLINE, and passes no NULL.
 */
#if defined(__GNUC__) && !defined(SAPHYR_NO_INLINE)
#define SAPHYR_INLINE extern __inline __attribute__((__gnu_inline__, __always_inline__))

extern int32_t saphyr_new_at(const uint8_t *, size_t, bool, saphyr_parser *) __asm__("saphyr_new");
extern int32_t saphyr_new_utf8_at(const uint8_t *, size_t, bool, saphyr_parser *) __asm__("saphyr_new_utf8");
extern int32_t saphyr_add_at(saphyr_parser *, const uint8_t *, size_t) __asm__("saphyr_add");
extern int32_t saphyr_add_utf8_at(saphyr_parser *, const uint8_t *, size_t) __asm__("saphyr_add_utf8");
extern size_t saphyr_valid_up_to_at(const uint8_t *, size_t) __asm__("saphyr_valid_up_to");
extern void saphyr_free_at(saphyr_parser *) __asm__("saphyr_free");
extern saphyr_node saphyr_get_at(saphyr_parser *, saphyr_node, const char *, size_t) __asm__("saphyr_get");
extern int32_t saphyr_check_standard_at(const uint8_t *, size_t, saphyr_deviation *) __asm__("saphyr_check_standard");
extern int32_t saphyr_check_at(const uint8_t *, size_t, const saphyr_check_options *, saphyr_findings *)
    __asm__("saphyr_check");
extern void saphyr_free_findings_at(saphyr_findings *) __asm__("saphyr_free_findings");

SAPHYR_INLINE int32_t saphyr_new(const uint8_t *text, size_t len, bool keep_tags, saphyr_parser *parser) {
    return saphyr_new_at(text ? text : (const uint8_t *)"", len, keep_tags, parser);
}

SAPHYR_INLINE int32_t saphyr_new_utf8(const uint8_t *text, size_t len, bool keep_tags, saphyr_parser *parser) {
    return saphyr_new_utf8_at(text ? text : (const uint8_t *)"", len, keep_tags, parser);
}

SAPHYR_INLINE int32_t saphyr_add(saphyr_parser *parser, const uint8_t *bytes, size_t len) {
    return saphyr_add_at(parser, bytes ? bytes : (const uint8_t *)"", len);
}

SAPHYR_INLINE int32_t saphyr_add_utf8(saphyr_parser *parser, const uint8_t *bytes, size_t len) {
    return saphyr_add_utf8_at(parser, bytes ? bytes : (const uint8_t *)"", len);
}

SAPHYR_INLINE size_t saphyr_valid_up_to(const uint8_t *text, size_t len) {
    return saphyr_valid_up_to_at(text ? text : (const uint8_t *)"", len);
}

SAPHYR_INLINE saphyr_node saphyr_get(saphyr_parser *parser, saphyr_node node, const char *key, size_t len) {
    return saphyr_get_at(parser, node, key ? key : "", len);
}

SAPHYR_INLINE int32_t saphyr_check_standard(const uint8_t *text, size_t len, saphyr_deviation *deviation) {
    return saphyr_check_standard_at(text ? text : (const uint8_t *)"", len, deviation);
}

SAPHYR_INLINE int32_t saphyr_check(const uint8_t *text, size_t len, const saphyr_check_options *options,
                                   saphyr_findings *findings) {
#ifdef __cplusplus
    const saphyr_check_options none = {};
#else
    const saphyr_check_options none = {0};
#endif
    return saphyr_check_at(text ? text : (const uint8_t *)"", len, options ? options : &none, findings);
}

SAPHYR_INLINE void saphyr_free_findings(saphyr_findings *findings) {
    if (findings) {
        saphyr_free_findings_at(findings);
    }
}

SAPHYR_INLINE void saphyr_free(saphyr_parser *parser) {
    if (parser) {
        saphyr_free_at(parser);
    }
}

#undef SAPHYR_INLINE
#endif

#ifdef __cplusplus
}
#endif

#endif
