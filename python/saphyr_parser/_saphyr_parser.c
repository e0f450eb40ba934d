/*
 * The part of the Python package that calls the library: readers, which hand out the events or the trees of a text, and
 * the types of a tree's nodes.
 *
 * It keeps to the Limited API of CPython 3.8, so one file serves that and all later versions. The places of a node are
 * numbers until somebody asks for them: most are never asked for, and a tuple takes longer than the node.
 */
#define PY_SSIZE_T_CLEAN
#define Py_LIMITED_API 0x03080000
#include <Python.h>

#include "saphyr_parser.h"

#include <string.h>

enum {
    PIECE = 65536,  /* how many bytes, or characters, a file is asked for */
    AROUND = 200,   /* how many characters of a line are shown at most on either side of a fault */
    TICKS = 4096,   /* after how many events of a tree a signal, such as that of Ctrl-C, is looked for */
    RAISED = -100   /* a status: a Python exception is set */
};

/* What the package has in Python, by `use`. */
static PyObject *kinds[SAPHYR_MAPPING_END + 1], *styles[SAPHYR_FOLDED + 1], *fault_of, *not_utf8_of;
static PyTypeObject *marker_type, *event_type;

/* The types made here, and where in an object of each the fields begin that are added to a str, a list or a dict. */
static PyTypeObject *scalar_type, *sequence_type, *mapping_type, *reader_type;
static Py_ssize_t in_scalar, in_sequence, in_mapping;
static newfunc scalar_new, mapping_new;
static traverseproc dict_traverse;
static inquiry dict_clear;

static PyObject *owned(PyObject *it) {
    Py_XINCREF(it);
    return it;
}

static PyObject *or_none(PyObject *it) {
    return owned(it ? it : Py_None);
}

static void replace(PyObject **at, PyObject *by) {
    PyObject *old = *at;
    *at = by;
    Py_XDECREF(old);
}

/* ---- Places, texts and tags. */

/* No text has more than 4,294,967,295 characters. The line is counted from 0, so that it fits. */
typedef struct {
    uint32_t index, line, column;
} place;

static place place_of(saphyr_marker marker) {
    return (place){(uint32_t)marker.index, (uint32_t)(marker.line - 1), (uint32_t)marker.col};
}

/* A tuple of one of the package's types. It takes the references, of which each may be NULL with an exception. */
static PyObject *tuple_of(PyTypeObject *type, Py_ssize_t count, PyObject **items) {
    bool is_whole = true;
    for (Py_ssize_t i = 0; i < count; i++) {
        is_whole = is_whole && items[i];
    }
    PyObject *made = is_whole ? PyType_GenericAlloc(type, count) : NULL;
    for (Py_ssize_t i = 0; i < count; i++) {
        if (made) {
            PyTuple_SetItem(made, i, items[i]);
        } else {
            Py_XDECREF(items[i]);
        }
    }
    return made;
}

static PyObject *marker_of(place it) {
    PyObject *items[] = {PyLong_FromUnsignedLong(it.index), PyLong_FromUnsignedLong(it.line + 1ul),
                         PyLong_FromUnsignedLong(it.column)};
    return tuple_of(marker_type, 3, items);
}

static int take_marker(PyObject *from, place *to) {
    unsigned int index, line, column;
    PyObject *all = PySequence_Tuple(from);
    int is_taken = all && PyArg_ParseTuple(all, "III", &index, &line, &column);
    if (is_taken) {
        *to = (place){index, line - 1, column};
    }
    Py_XDECREF(all);
    return is_taken ? 0 : -1;
}

static PyObject *text_of(saphyr_text text) {
    return PyUnicode_DecodeUTF8(text.len ? (const char *)text.at : "", (Py_ssize_t)text.len, NULL);
}

static PyObject *tag_of(const saphyr_event *event) {
    if (!event->tag_handle.len) {
        return text_of(event->tag_suffix);
    }
    PyObject *handle = text_of(event->tag_handle), *suffix = text_of(event->tag_suffix);
    PyObject *both = handle && suffix ? PyUnicode_Concat(handle, suffix) : NULL;
    Py_XDECREF(handle);
    Py_XDECREF(suffix);
    return both;
}

/* The bytes of a str, of bytes or of what has a buffer. */
static PyObject *bytes_of(PyObject *text) {
    if (PyUnicode_Check(text)) {
        return PyUnicode_AsUTF8String(text);
    }
    if (PyBytes_CheckExact(text)) {
        return owned(text);
    }
    PyObject *view = PyMemoryView_FromObject(text);
    PyObject *bytes = view ? PyBytes_FromObject(view) : NULL;
    Py_XDECREF(view);
    return bytes;
}

/* How many characters begin in some bytes of UTF-8. */
static size_t characters(const char *at, size_t len) {
    size_t count = 0;
    for (size_t i = 0; i < len; i++) {
        count += (at[i] & 0xC0) != 0x80;
    }
    return count;
}

/* ---- What a node of a tree has beyond its str, list or dict. */

typedef struct {
    PyObject *tag;   /* or NULL */
    PyObject *pairs; /* of a mapping: NULL as long as they are the items of the dict */
    place start, end;
    uint32_t anchor;
    int32_t style;
} node;

static node *node_at(PyObject *self, Py_ssize_t in) {
    return (node *)(void *)((char *)self + in);
}

static node *node_of(PyObject *self) {
    return node_at(self, PyUnicode_Check(self) ? in_scalar : PyList_Check(self) ? in_sequence : in_mapping);
}

/* The attributes. The tables of the types say which of these is meant by an address in `attributes`. */
enum { START, END, TAG, ANCHOR, STYLE, PAIRS };
static char attributes[PAIRS + 1];

static PyObject *get(PyObject *self, void *which) {
    node *from = node_of(self);
    switch ((char *)which - attributes) {
    case START: return marker_of(from->start);
    case END: return marker_of(from->end);
    case TAG: return or_none(from->tag);
    case ANCHOR: return PyLong_FromUnsignedLong(from->anchor);
    case STYLE: return owned(styles[from->style]);
    default:
        if (!from->pairs) {
            from->pairs = PyDict_Items(self);
        }
        return owned(from->pairs);
    }
}

static int set_number(PyObject *to, unsigned long most, unsigned long *number) {
    *number = PyLong_AsUnsignedLong(to);
    if (!PyErr_Occurred() && *number > most) {
        PyErr_SetString(PyExc_ValueError, "the number is too large");
    }
    return PyErr_Occurred() ? -1 : 0;
}

static int set_tag(node *of, PyObject *to) {
    if (to != Py_None && !PyUnicode_Check(to)) {
        PyErr_SetString(PyExc_TypeError, "a tag is a str or None");
        return -1;
    }
    replace(&of->tag, to == Py_None ? NULL : owned(to));
    return 0;
}

static int set(PyObject *self, PyObject *to, void *which) {
    node *into = node_of(self);
    unsigned long number = 0;
    if (!to) {
        PyErr_SetString(PyExc_AttributeError, "a node keeps its attributes");
        return -1;
    }
    switch ((char *)which - attributes) {
    case START: return take_marker(to, &into->start);
    case END: return take_marker(to, &into->end);
    case TAG: return set_tag(into, to);
    case ANCHOR:
        if (set_number(to, UINT32_MAX, &number)) {
            return -1;
        }
        into->anchor = (uint32_t)number;
        return 0;
    case STYLE:
        if (set_number(to, SAPHYR_FOLDED, &number)) {
            return -1;
        }
        into->style = (int32_t)number;
        return 0;
    default: replace(&into->pairs, owned(to)); return 0;
    }
}

static PyObject *attributes_of(PyObject *self) {
    node *from = node_of(self);
    PyObject *all = Py_BuildValue("{sNsNsOsk}", "start", marker_of(from->start), "end", marker_of(from->end), "tag",
                                  from->tag ? from->tag : Py_None, "anchor", (unsigned long)from->anchor);
    PyObject *more = PyUnicode_Check(self) ? styles[from->style] : from->pairs;
    if (all && more && PyDict_SetItemString(all, PyUnicode_Check(self) ? "style" : "pairs", more)) {
        Py_CLEAR(all);
    }
    return all;
}

static PyObject *iterator_over(PyObject *entries) {
    PyObject *iterator = entries ? PyObject_GetIter(entries) : NULL;
    Py_XDECREF(entries);
    return iterator;
}

/* For pickle and copy: how the object is made, its attributes, and its entries. */
static PyObject *reduce(PyObject *self, PyObject *none) {
    (void)none;
    PyObject *of_str = PyUnicode_Check(self) ? Py_BuildValue("(N)", PyObject_Str(self)) : PyTuple_New(0);
    PyObject *of_list = PyList_Check(self) ? iterator_over(owned(self)) : or_none(NULL);
    PyObject *of_dict = PyDict_Check(self) ? iterator_over(PyDict_Items(self)) : or_none(NULL);
    return Py_BuildValue("ON(ON)NN", Py_TYPE(self), of_str, Py_None, attributes_of(self), of_list, of_dict);
}

/* A type's own tp_dealloc would have to call that of str, list or dict, which the Limited API doesn't give. So fields
   are dropped where CPython's tp_dealloc calls tp_finalize, and that also keeps deep trees from filling the stack. */
static void drop_fields(PyObject *self) {
    node *of = node_of(self);
    Py_CLEAR(of->tag);
    Py_CLEAR(of->pairs);
}

static int traverse_mapping(PyObject *self, visitproc visit, void *arg) {
    Py_VISIT(node_at(self, in_mapping)->pairs);
    return dict_traverse(self, visit, arg);
}

static int clear_mapping(PyObject *self) {
    Py_CLEAR(node_at(self, in_mapping)->pairs);
    return dict_clear(self);
}

/* As a key, a collection is equal to itself alone. */
static Py_hash_t hash_of_identity(PyObject *self) {
    return (Py_hash_t)((uintptr_t)self >> 4);
}

/* ---- Readers. */

/* An open collection. `node` is NULL where events are wanted, and `key` is one that waits for its value, or NULL. */
typedef struct {
    PyObject *node, *key;
    place start;
} frame;

typedef struct {
    PyObject_HEAD
    saphyr_parser parser;
    saphyr_event event;
    PyObject *text;           /* the bytes, or NULL if they are read from a file */
    PyObject *read, *close;   /* of the file, or NULL; `close` only where the file was opened for this reader */
    PyObject *name;           /* the file's, or None */
    PyObject *before, *piece; /* the last two pieces, or NULL, so that a fault's line can be shown */
    size_t passed, in_before, in_piece; /* how many characters were before them, and are in them */
    frame *open;
    size_t depth, room;
    PyObject *anchors, *root; /* of a tree: its nodes by the numbers of their anchors, and the root, or NULL */
    PyObject *argument;       /* a tuple for calls of str, which is used again */
    PyObject *marker;         /* the one made last, of the place marked, or NULL */
    place marked, behind;     /* `behind`: where the last event ended */
    size_t nodes, most_nodes, most_depth, most_characters, most_waiting; /* SIZE_MAX: any number */
    bool trees, keep_tags, is_utf8, begun, busy, done;
} reader;

/* Frees what the reader has, and closes its file. Nothing is left to be read. An exception that is set stays. */
static void let_go(reader *it) {
    PyObject *type, *value, *trace, *close = it->close;
    PyErr_Fetch(&type, &value, &trace);
    it->done = true;
    it->close = NULL;
    saphyr_free(&it->parser);
    while (it->depth) {
        frame *last = &it->open[--it->depth];
        Py_CLEAR(last->node);
        Py_CLEAR(last->key);
    }
    PyMem_Free(it->open);
    it->open = NULL;
    it->room = 0;
    PyObject **held[] = {&it->text, &it->read, &it->before, &it->piece, &it->anchors, &it->root, &it->argument,
                         &it->marker};
    for (size_t i = 0; i < sizeof held / sizeof *held; i++) {
        Py_CLEAR(*held[i]);
    }
    if (close) {
        PyObject *done = PyObject_CallObject(close, NULL);
        if (!done) {
            PyErr_WriteUnraisable(close);
        }
        Py_XDECREF(done);
        Py_DECREF(close);
    }
    PyErr_Restore(type, value, trace);
}

/* Types are not visited: these live as long as the process. */
static int traverse_reader(PyObject *self, visitproc visit, void *arg) {
    reader *it = (reader *)self;
    Py_VISIT(it->read);
    Py_VISIT(it->close);
    Py_VISIT(it->anchors);
    Py_VISIT(it->root);
    for (size_t i = 0; i < it->depth; i++) {
        Py_VISIT(it->open[i].node);
        Py_VISIT(it->open[i].key);
    }
    return 0;
}

static int clear_reader(PyObject *self) {
    let_go((reader *)self);
    return 0;
}

static void free_reader(PyObject *self) {
    PyTypeObject *type = Py_TYPE(self);
    freefunc free_it = (freefunc)PyType_GetSlot(type, Py_tp_free);
    PyObject_GC_UnTrack(self);
    let_go((reader *)self);
    Py_CLEAR(((reader *)self)->name);
    free_it(self);
    Py_DECREF(type);
}

/* ---- Faults. */

/* The line of the character at `index`, as the part before it and the part from it on, or None if it is gone. */
static PyObject *line_of(const char *at, size_t len, size_t passed, size_t index) {
    static const char mark[] = "\xEF\xBB\xBF"; /* of the byte order, which counts for no column */
    size_t here = 0, first = !passed && len >= 3 && !memcmp(at, mark, 3) ? 3 : 0;
    if (index < passed) {
        Py_RETURN_NONE;
    }
    for (size_t left = index - passed; here < len; here++) {
        if ((at[here] & 0xC0) != 0x80 && !left--) {
            break;
        }
    }
    size_t from = here, to = here;
    for (size_t count = 0; from > first && at[from - 1] != '\n' && at[from - 1] != '\r' && count < AROUND;) {
        count += (at[--from] & 0xC0) != 0x80;
    }
    for (size_t count = 0; to < len && at[to] != '\n' && at[to] != '\r'; to++) {
        count += (at[to] & 0xC0) != 0x80;
        if (count > AROUND) {
            break;
        }
    }
    PyObject *front = PyUnicode_DecodeUTF8(at + from, (Py_ssize_t)(here - from), "replace");
    PyObject *back = PyUnicode_DecodeUTF8(at + here, (Py_ssize_t)(to - here), "replace");
    if (front && back) {
        return Py_BuildValue("(NN)", front, back);
    }
    Py_XDECREF(front);
    Py_XDECREF(back);
    return NULL;
}

/* The same in what is there of the text. */
static PyObject *line_in(reader *it, size_t index) {
    PyObject *bytes = it->text ? owned(it->text) : PyBytes_FromStringAndSize(NULL, 0), *line;
    if (it->before && bytes) {
        PyBytes_Concat(&bytes, it->before);
    }
    if (it->piece && bytes) {
        PyBytes_Concat(&bytes, it->piece);
    }
    if (!bytes) {
        return NULL;
    }
    line = line_of(PyBytes_AsString(bytes), (size_t)PyBytes_Size(bytes), it->passed, index);
    Py_DECREF(bytes);
    return line;
}

/* Raises what `made` is, and takes the reference. */
static void raise_it(PyObject *made) {
    if (made) {
        PyErr_SetObject((PyObject *)Py_TYPE(made), made);
        Py_DECREF(made);
    }
}

static const char too_long[] = "the text has more than %zu characters";

/* Raises TooLarge with the form of its reason and the limit, or Refused with that of the event if `form` is NULL. */
static int refuse(reader *it, place at, const char *form, size_t most) {
    PyObject *why = form ? PyUnicode_FromFormat(form, most) : text_of(it->event.value), *line = line_in(it, at.index);
    PyObject *start = marker_of(at), *opened = it->depth ? marker_of(it->open[it->depth - 1].start) : or_none(NULL);
    if (why && line && start && opened) {
        PyObject *is_limit = form ? Py_True : Py_False;
        raise_it(PyObject_CallFunction(fault_of, "OOOOOO", is_limit, why, start, it->name, opened, line));
    }
    Py_XDECREF(why);
    Py_XDECREF(line);
    Py_XDECREF(start);
    Py_XDECREF(opened);
    return RAISED;
}

/* Raises what a status below 0 means. */
static PyObject *fail(reader *it, int32_t status) {
    switch (status) {
    case RAISED: break;
    case SAPHYR_REFUSED: refuse(it, place_of(it->event.start), NULL, 0); break;
    case SAPHYR_TOO_LONG: refuse(it, place_of(it->event.start), too_long, UINT32_MAX); break;
    /* the library tells no place of this one */
    case SAPHYR_TOO_MUCH:
        refuse(it, it->behind, "more than %zu bytes wait for the next event", it->most_waiting);
        break;
    case SAPHYR_NO_MEMORY: PyErr_NoMemory(); break;
    case SAPHYR_NOT_UTF8:
    case SAPHYR_UTF16:
        raise_it(PyObject_CallFunction(not_utf8_of, "OO", status == SAPHYR_UTF16 ? Py_True : Py_False, it->name));
        break;
    default: PyErr_Format(PyExc_SystemError, "the library's call returned %d", (int)status);
    }
    return NULL;
}

/* ---- What is read. */

static int32_t begin(reader *it) {
    it->begun = true;
    if (it->read) {
        /* the library takes 0 for no limit */
        size_t waiting = it->most_waiting == SIZE_MAX ? 0 : it->most_waiting ? it->most_waiting : 1;
        return saphyr_new_pieces(it->keep_tags, 0, waiting, &it->parser);
    }
    const char *at = PyBytes_AsString(it->text);
    size_t len = (size_t)PyBytes_Size(it->text);
    if (len > it->most_characters && characters(at, len) > it->most_characters) {
        return refuse(it, it->behind, too_long, it->most_characters);
    }
    return (it->is_utf8 ? saphyr_new_utf8 : saphyr_new)((const uint8_t *)at, len, it->keep_tags, &it->parser);
}

/* Reads the file's next bytes, and returns a status. */
static int32_t add(reader *it) {
    PyObject *got = PyObject_CallFunction(it->read, "i", (int)PIECE), *bytes = got ? bytes_of(got) : NULL;
    Py_XDECREF(got);
    if (!bytes) {
        return RAISED;
    }
    const char *at = PyBytes_AsString(bytes);
    size_t len = (size_t)PyBytes_Size(bytes);
    if (!len) {
        Py_DECREF(bytes);
        return saphyr_add(&it->parser, NULL, 0);
    }
    it->passed += it->in_before;
    it->in_before = it->in_piece;
    it->in_piece = characters(at, len);
    replace(&it->before, it->piece);
    it->piece = bytes;
    if (it->passed + it->in_before + it->in_piece > it->most_characters) {
        return refuse(it, it->behind, too_long, it->most_characters);
    }
    return saphyr_add(&it->parser, (const uint8_t *)at, len);
}

/* Notes that a collection is open. It takes the reference to its node, which may be NULL. */
static int open_one(reader *it, PyObject *made) {
    if (it->depth == it->room) {
        size_t room = it->room ? 2 * it->room : 16;
        frame *moved = PyMem_Realloc(it->open, room * sizeof *moved);
        if (!moved) {
            Py_XDECREF(made);
            PyErr_NoMemory();
            return -1;
        }
        it->open = moved;
        it->room = room;
    }
    it->open[it->depth++] = (frame){made, NULL, place_of(it->event.start)};
    return 0;
}

/* ---- Events. */

/* The Marker of a place. An event often starts where the one before ended. */
static PyObject *same_marker(reader *it, saphyr_marker of) {
    place at = place_of(of);
    if (!it->marker || memcmp(&it->marked, &at, sizeof at)) {
        replace(&it->marker, marker_of(at));
        it->marked = at;
    }
    return owned(it->marker);
}

static PyObject *give_event(reader *it) {
    const saphyr_event *from = &it->event;
    bool is_scalar = from->kind == SAPHYR_SCALAR;
    if (from->kind == SAPHYR_SEQUENCE_START || from->kind == SAPHYR_MAPPING_START) {
        if (open_one(it, NULL)) {
            return NULL;
        }
    } else if (from->kind == SAPHYR_SEQUENCE_END || from->kind == SAPHYR_MAPPING_END) {
        it->depth--;
    }
    PyObject *start = same_marker(it, from->start), *end = same_marker(it, from->end);
    PyObject *items[] = {owned(kinds[from->kind]),
                         start,
                         end,
                         is_scalar ? text_of(from->value) : or_none(NULL),
                         or_none(is_scalar ? styles[from->style] : NULL),
                         from->has_tag ? tag_of(from) : or_none(NULL),
                         PyLong_FromSize_t(from->anchor),
                         PyBool_FromLong(from->is_explicit)};
    return tuple_of(event_type, 8, items);
}

/* ---- Trees. */

/* Puts a pair into a mapping. Its `pairs` are kept as soon as a key comes again, whose first value the dict loses. */
static int put_pair(PyObject *mapping, PyObject *key, PyObject *value) {
    node *of = node_at(mapping, in_mapping);
    int is_there = of->pairs ? 0 : PyDict_Contains(mapping, key);
    if (is_there < 0 || (is_there && !(of->pairs = PyDict_Items(mapping)))) {
        return -1;
    }
    if (of->pairs) {
        PyObject *pair = PyTuple_Pack(2, key, value);
        int failed = !pair || PyList_Append(of->pairs, pair);
        Py_XDECREF(pair);
        if (failed) {
            return -1;
        }
    }
    return PyDict_SetItem(mapping, key, value);
}

/* Puts a node into the innermost open collection. It takes the reference, which may be NULL with an exception. */
static int put(reader *it, PyObject *made) {
    frame *in = it->depth ? &it->open[it->depth - 1] : NULL;
    if (!made) {
        return -1;
    }
    if (!in) {
        replace(&it->root, made);
        return 0;
    }
    if (PyDict_Check(in->node) && !in->key) {
        in->key = made;
        return 0;
    }
    int failed = in->key ? put_pair(in->node, in->key, made) : PyList_Append(in->node, made);
    Py_CLEAR(in->key);
    Py_DECREF(made);
    return failed;
}

/* Gives a new node what the event says, and notes its anchor. Returns it, or NULL with an exception. */
static PyObject *described(reader *it, PyObject *made, Py_ssize_t in) {
    const saphyr_event *from = &it->event;
    if (!made) {
        return NULL;
    }
    node *to = node_at(made, in);
    to->start = place_of(from->start);
    to->end = place_of(from->end);
    to->anchor = (uint32_t)from->anchor;
    to->style = from->style;
    bool failed = from->has_tag && !(to->tag = tag_of(from));
    if (from->anchor && !failed) {
        PyObject *number = PyLong_FromSize_t(from->anchor);
        if (!it->anchors) {
            it->anchors = PyDict_New();
        }
        failed = !number || !it->anchors || PyDict_SetItem(it->anchors, number, made);
        Py_XDECREF(number);
    }
    if (failed) {
        Py_CLEAR(made);
    }
    return made;
}

static PyObject *scalar_of(reader *it) {
    PyObject *text = text_of(it->event.value);
    if (!it->argument) {
        it->argument = PyTuple_New(1);
    }
    if (!it->argument || !text) {
        Py_XDECREF(text);
        return NULL;
    }
    if (PyTuple_SetItem(it->argument, 0, text)) {
        return NULL;
    }
    return described(it, scalar_new(scalar_type, it->argument, NULL), in_scalar);
}

static int open_collection(reader *it, bool is_mapping) {
    if (it->depth >= it->most_depth) {
        return refuse(it, place_of(it->event.start), "more than %zu collections are open", it->most_depth);
    }
    PyObject *none = is_mapping ? PyTuple_New(0) : NULL, *made;
    if (is_mapping) {
        made = none ? mapping_new(mapping_type, none, NULL) : NULL;
    } else {
        made = PyType_GenericAlloc(sequence_type, 0);
    }
    Py_XDECREF(none);
    made = described(it, made, is_mapping ? in_mapping : in_sequence);
    return made ? open_one(it, made) : -1;
}

static int close_collection(reader *it) {
    PyObject *made = it->open[--it->depth].node;
    node_at(made, PyDict_Check(made) ? in_mapping : in_sequence)->end = place_of(it->event.end);
    return put(it, made);
}

static int put_named(reader *it) {
    PyObject *number = PyLong_FromSize_t(it->event.anchor);
    PyObject *named = number && it->anchors ? PyDict_GetItemWithError(it->anchors, number) : NULL;
    Py_XDECREF(number);
    if (!named && !PyErr_Occurred()) {
        PyErr_SetString(PyExc_SystemError, "an alias names no node");
    }
    return put(it, owned(named));
}

/* Takes an event of a tree. Returns 1 if its document has ended, and below 0 with an exception. */
static int take(reader *it) {
    int32_t kind = it->event.kind;
    bool is_node = kind == SAPHYR_ALIAS || kind == SAPHYR_SCALAR || kind == SAPHYR_SEQUENCE_START ||
                   kind == SAPHYR_MAPPING_START;
    if (is_node && it->nodes++ >= it->most_nodes) {
        return refuse(it, place_of(it->event.start), "the document has more than %zu nodes", it->most_nodes);
    }
    switch (kind) {
    case SAPHYR_SCALAR: return put(it, scalar_of(it));
    case SAPHYR_ALIAS: return put_named(it);
    case SAPHYR_SEQUENCE_START: return open_collection(it, false);
    case SAPHYR_MAPPING_START: return open_collection(it, true);
    case SAPHYR_SEQUENCE_END:
    case SAPHYR_MAPPING_END: return close_collection(it);
    default: return kind == SAPHYR_DOCUMENT_END;
    }
}

static PyObject *give_root(reader *it) {
    PyObject *root = it->root;
    it->root = NULL;
    it->nodes = 0;
    Py_CLEAR(it->anchors);
    return root;
}

/* ---- What Python calls. */

static PyObject *advance(reader *it) {
    int32_t status = it->begun ? SAPHYR_OK : begin(it);
    for (unsigned int ticks = 1; status >= 0; ticks++) {
        status = saphyr_next(&it->parser, &it->event);
        if (status == SAPHYR_MORE) {
            status = add(it);
        } else if (status == SAPHYR_EVENT) {
            it->behind = place_of(it->event.end);
            if (!it->trees) {
                return give_event(it);
            }
            int taken = take(it);
            if (taken < 0 || (ticks % TICKS == 0 && PyErr_CheckSignals())) {
                return NULL;
            }
            if (taken) {
                return give_root(it);
            }
        } else {
            break;
        }
    }
    return status < 0 ? fail(it, status) : NULL;
}

/* The file's `read`, and what ends objects, may call the reader again, from this thread or another. */
static bool is_busy(reader *it) {
    if (it->busy) {
        PyErr_SetString(PyExc_ValueError, "the reader is already reading");
    }
    return it->busy;
}

static PyObject *next_of(PyObject *self) {
    reader *it = (reader *)self;
    if (it->done || is_busy(it)) {
        return NULL;
    }
    it->busy = true;
    PyObject *given = advance(it);
    it->busy = false;
    if (!given) {
        let_go(it);
    }
    return given;
}

static PyObject *close_reader(PyObject *self, PyObject *none) {
    (void)none;
    if (is_busy((reader *)self)) {
        return NULL;
    }
    let_go((reader *)self);
    Py_RETURN_NONE;
}

static int limit(PyObject *from, void *to) {
    *(size_t *)to = from == Py_None ? SIZE_MAX : PyLong_AsSize_t(from);
    return !PyErr_Occurred();
}

/* read(text, name, close, trees, keep_tags, nodes, depth, most_characters, most_waiting): a reader. `close` is None, or
   closes the file once the reader is done. */
static PyObject *read_text(PyObject *module, PyObject *args) {
    (void)module;
    int trees, keep_tags;
    PyObject *text, *name, *close = Py_None;
    reader *it = (reader *)PyType_GenericAlloc(reader_type, 0);
    if (!it) {
        return NULL;
    }
    bool is_right =
        PyArg_ParseTuple(args, "OOOppO&O&O&O&", &text, &name, &close, &trees, &keep_tags, limit, &it->most_nodes, limit,
                         &it->most_depth, limit, &it->most_characters, limit, &it->most_waiting);
    it->close = close == Py_None ? NULL : owned(close);
    if (is_right) {
        it->trees = trees;
        it->keep_tags = keep_tags;
        it->name = owned(name);
        it->is_utf8 = PyUnicode_Check(text);
        if (!it->is_utf8 && !PyBytes_Check(text) && !(it->read = PyObject_GetAttrString(text, "read"))) {
            PyErr_Clear();
        }
        is_right = it->read || (it->text = bytes_of(text));
    }
    if (!is_right) {
        Py_CLEAR(it);
    }
    return (PyObject *)it;
}

/* standard(text): None if it is YAML 1.2.2; or the place, the rule and its sentence; or the status if it isn't read. */
static PyObject *standard(PyObject *module, PyObject *text) {
    (void)module;
    PyObject *bytes = bytes_of(text);
    if (!bytes) {
        return NULL;
    }
    const uint8_t *at = (const uint8_t *)PyBytes_AsString(bytes);
    size_t len = (size_t)PyBytes_Size(bytes);
    saphyr_deviation found = {0};
    int32_t status;
    Py_BEGIN_ALLOW_THREADS
    status = saphyr_check_standard(at, len, &found);
    Py_END_ALLOW_THREADS
    Py_DECREF(bytes);
    if (status == SAPHYR_OK) {
        Py_RETURN_NONE;
    }
    if (status != SAPHYR_DEVIATES) {
        return PyLong_FromLong(status);
    }
    return Py_BuildValue("NNN", marker_of(place_of(found.place)), text_of(found.rule), text_of(found.sentence));
}

static int next_found(saphyr_findings *found, saphyr_finding *it, bool is_note) {
    int32_t status = is_note ? saphyr_next_note(found, it) : saphyr_next_finding(found, it);
    if (status == SAPHYR_NO_MEMORY) {
        PyErr_NoMemory();
        return -1;
    }
    return status == SAPHYR_FINDING;
}

/* The findings that are left, or the notes on the last, each as a tuple of the fields of `Finding`. */
static PyObject *list_found(saphyr_findings *found, bool are_notes) {
    PyObject *list = PyList_New(0);
    saphyr_finding it = {0};
    int is_there = 0;
    while (list && (is_there = next_found(found, &it, are_notes)) > 0) {
        PyObject *rule = text_of(it.rule), *message = text_of(it.message);
        PyObject *start = marker_of(place_of(it.start)), *end = marker_of(place_of(it.end));
        PyObject *notes = are_notes ? PyList_New(0) : list_found(found, true);
        PyObject *one = Py_BuildValue("iNNNNN", (int)it.severity, rule, message, start, end, notes);
        if (!one || PyList_Append(list, one)) {
            Py_CLEAR(list);
        }
        Py_XDECREF(one);
    }
    if (is_there < 0) {
        Py_CLEAR(list);
    }
    return list;
}

/* check(text, standard, strict, disabled, most_depth, most_findings, most_nodes): whether the text passes, and what is
   found. `disabled` has the bit of each rule that is off, in the order of the header. */
static PyObject *check(PyObject *module, PyObject *args) {
    (void)module;
    PyObject *text, *bytes, *list;
    int standard_too, strict;
    unsigned int disabled;
    Py_ssize_t depth, findings, nodes, len;
    char *at;
    if (!PyArg_ParseTuple(args, "OppInnn", &text, &standard_too, &strict, &disabled, &depth, &findings, &nodes)) {
        return NULL;
    }
    saphyr_check_options options = {0};
    options.standard = standard_too;
    options.strict = strict;
    bool *const rules[] = {&options.disable.alias_in_itself, &options.disable.duplicate_key,
                           &options.disable.empty_document,  &options.disable.max_depth,
                           &options.disable.max_nodes,       &options.disable.wide_alias};
    for (size_t i = 0; i < sizeof rules / sizeof *rules; i++) {
        *rules[i] = disabled >> i & 1;
    }
    options.max_depth = (size_t)depth;
    options.max_findings = (size_t)findings;
    options.max_nodes = (size_t)nodes;
    bytes = bytes_of(text);
    if (!bytes || PyBytes_AsStringAndSize(bytes, &at, &len)) {
        Py_XDECREF(bytes);
        return NULL;
    }
    saphyr_findings found = {0};
    int32_t status;
    Py_BEGIN_ALLOW_THREADS
    status = saphyr_check((const uint8_t *)at, (size_t)len, &options, &found);
    Py_END_ALLOW_THREADS
    Py_DECREF(bytes);
    list = status == SAPHYR_NO_MEMORY ? PyErr_NoMemory() : list_found(&found, false);
    saphyr_free_findings(&found);
    return list ? Py_BuildValue("NN", PyBool_FromLong(status == SAPHYR_OK), list) : NULL;
}

/* use(Kind, Style, Marker, Event, fault, NotUtf8): what the package has in Python. */
static PyObject *use(PyObject *module, PyObject *args) {
    (void)module;
    PyObject *kind, *style, *marker, *event, *fault, *not_utf8;
    if (!PyArg_ParseTuple(args, "OOOOOO", &kind, &style, &marker, &event, &fault, &not_utf8)) {
        return NULL;
    }
    for (int i = SAPHYR_STREAM_START; i <= SAPHYR_MAPPING_END; i++) {
        replace(&kinds[i], PyObject_CallFunction(kind, "i", i));
        if (!kinds[i]) {
            return NULL;
        }
    }
    for (int i = SAPHYR_PLAIN; i <= SAPHYR_FOLDED; i++) {
        replace(&styles[i], PyObject_CallFunction(style, "i", i));
        if (!styles[i]) {
            return NULL;
        }
    }
    marker_type = (PyTypeObject *)owned(marker);
    event_type = (PyTypeObject *)owned(event);
    replace(&fault_of, owned(fault));
    replace(&not_utf8_of, owned(not_utf8));
    Py_RETURN_NONE;
}

/* ---- The module. */

#define ATTRIBUTE(name, which, doc) {name, get, set, doc, &attributes[which]}
#define EACH                                                                                                           \
    ATTRIBUTE("start", START, "Where it begins."), ATTRIBUTE("end", END, "Where its span ends."),                      \
        ATTRIBUTE("tag", TAG, "Its tag, or None."), ATTRIBUTE("anchor", ANCHOR, "The number of its anchor, or 0.")
#define NONE {NULL, NULL, NULL, NULL, NULL}

static PyGetSetDef of_scalar[] = {EACH, ATTRIBUTE("style", STYLE, "How it is written."), NONE};
static PyGetSetDef of_sequence[] = {EACH, NONE};
static PyGetSetDef of_mapping[] = {EACH, ATTRIBUTE("pairs", PAIRS, "All keys with their values."), NONE};
static PyMethodDef node_calls[] = {{"__reduce__", reduce, METH_NOARGS, NULL}, {NULL, NULL, 0, NULL}};
static PyMethodDef reader_calls[] = {
    {"close", close_reader, METH_NOARGS, "Ends the reading, and frees the parser."}, {NULL, NULL, 0, NULL}};
static PyMethodDef calls[] = {{"check", check, METH_VARARGS, NULL},
                              {"read", read_text, METH_VARARGS, NULL},
                              {"standard", standard, METH_O, NULL},
                              {"use", use, METH_VARARGS, NULL},
                              {NULL, NULL, 0, NULL}};
static struct PyModuleDef definition = {
    PyModuleDef_HEAD_INIT, "saphyr_parser._saphyr_parser", NULL, -1, calls, NULL, NULL, NULL, NULL};

static PyType_Slot nothing[] = {{0, NULL}};
static PyType_Slot scalar[] = {{Py_tp_doc, "A scalar. It is its text, and has a `style`."},
                               {Py_tp_getset, of_scalar},
                               {Py_tp_methods, node_calls},
                               {Py_tp_finalize, drop_fields},
                               {0, NULL}};
/* How lists and dicts are compared comes first: that isn't known before the types are made. */
static PyType_Slot sequence[] = {{Py_tp_richcompare, NULL},
                                 {Py_tp_doc, "A sequence. It is the list of its entries."},
                                 {Py_tp_getset, of_sequence},
                                 {Py_tp_methods, node_calls},
                                 {Py_tp_finalize, drop_fields},
                                 {Py_tp_hash, hash_of_identity},
                                 {0, NULL}};
static PyType_Slot mapping[] = {{Py_tp_richcompare, NULL},
                                {Py_tp_doc, "A mapping. As a `dict` it has the last value of each key, and its `pairs`"
                                            " are all keys with their values."},
                                {Py_tp_getset, of_mapping},
                                {Py_tp_methods, node_calls},
                                {Py_tp_finalize, drop_fields},
                                {Py_tp_traverse, traverse_mapping},
                                {Py_tp_clear, clear_mapping},
                                {Py_tp_hash, hash_of_identity},
                                {0, NULL}};
static PyType_Slot of_reader[] = {{Py_tp_doc, "An iterator over the events or the trees of a text."},
                                  {Py_tp_iter, PyObject_SelfIter},
                                  {Py_tp_iternext, next_of},
                                  {Py_tp_methods, reader_calls},
                                  {Py_tp_dealloc, free_reader},
                                  {Py_tp_traverse, traverse_reader},
                                  {Py_tp_clear, clear_reader},
                                  {0, NULL}};
static PyType_Spec reader_spec = {"saphyr_parser._Reader", sizeof(reader), 0, Py_TPFLAGS_DEFAULT | Py_TPFLAGS_HAVE_GC,
                                  of_reader};

/* A type that adds `more` bytes to another one, behind `in` bytes. Returns NULL with an exception. */
static PyTypeObject *type_over(PyTypeObject *base, const char *name, size_t more, Py_ssize_t *in, PyType_Slot *slots) {
    PyObject *size = PyObject_GetAttrString((PyObject *)base, "__basicsize__"), *bases = PyTuple_Pack(1, base);
    PyObject *type = NULL;
    if (size && bases) {
        *in = PyLong_AsSsize_t(size);
        /* what has a tp_traverse of its own says so; the others take all of it from their base */
        unsigned int flags = slots == mapping ? Py_TPFLAGS_HAVE_GC : 0;
        PyType_Spec spec = {name, (int)(*in + (Py_ssize_t)more), 0, Py_TPFLAGS_DEFAULT | Py_TPFLAGS_BASETYPE | flags,
                            slots};
        type = PyType_FromSpecWithBases(&spec, bases);
    }
    Py_XDECREF(size);
    Py_XDECREF(bases);
    return (PyTypeObject *)type;
}

static bool make_types(void) {
    Py_ssize_t any;
    /* these tell what a list and a dict do: of the types `list` and `dict` the Limited API doesn't */
    PyTypeObject *list = type_over(&PyList_Type, "saphyr_parser._list", 0, &any, nothing);
    PyTypeObject *dict = type_over(&PyDict_Type, "saphyr_parser._dict", 0, &any, nothing);
    if (!list || !dict) {
        return false;
    }
    sequence[0].pfunc = PyType_GetSlot(list, Py_tp_richcompare);
    mapping[0].pfunc = PyType_GetSlot(dict, Py_tp_richcompare);
    dict_traverse = (traverseproc)PyType_GetSlot(dict, Py_tp_traverse);
    dict_clear = (inquiry)PyType_GetSlot(dict, Py_tp_clear);
    mapping_new = (newfunc)PyType_GetSlot(dict, Py_tp_new);
    scalar_type = type_over(&PyUnicode_Type, "saphyr_parser.Scalar", sizeof(node), &in_scalar, scalar);
    sequence_type = type_over(&PyList_Type, "saphyr_parser.Sequence", sizeof(node), &in_sequence, sequence);
    mapping_type = type_over(&PyDict_Type, "saphyr_parser.Mapping", sizeof(node), &in_mapping, mapping);
    reader_type = (PyTypeObject *)PyType_FromSpec(&reader_spec);
    scalar_new = scalar_type ? (newfunc)PyType_GetSlot(scalar_type, Py_tp_new) : NULL;
    return scalar_type && sequence_type && mapping_type && reader_type;
}

PyMODINIT_FUNC PyInit__saphyr_parser(void) {
    PyObject *module = PyModule_Create(&definition);
    if (!module) {
        return NULL;
    }
    if (saphyr_version() != SAPHYR_VERSION) {
        PyErr_SetString(PyExc_ImportError, "the library has another version than its header");
    } else if (make_types() && !PyModule_AddObject(module, "Scalar", owned((PyObject *)scalar_type)) &&
               !PyModule_AddObject(module, "Sequence", owned((PyObject *)sequence_type)) &&
               !PyModule_AddObject(module, "Mapping", owned((PyObject *)mapping_type)) &&
               !PyModule_AddStringConstant(module, "VERSION", SAPHYR_PARSER_VERSION)) {
        return module;
    }
    Py_DECREF(module);
    return NULL;
}
