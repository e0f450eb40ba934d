#!/usr/bin/env python3
"""Worked examples of the definitions: small texts with what they stand for, and near misses.

    tests/examples.py

Asks the definitions of YAML's grammar, as recognizer.py has them, and those of what is taken from a text, as answers.py
has them. It takes a second and needs no program. A new definition has a row here that fails without it.

An answer is the lines of its events, without those of the stream, and without those of the document if that is the only
one and has no `---`. Of `NOT_FIRST` it is one document, which a fault may follow.
"""
import sys
import threading

import answers
import recognizer

# A text of the grammar, and what it stands for: its only forest has these events, and they are taken from it.
RIGHT = [
    ("[a, b]", "+SEQ / =VAL :a / =VAL :b / -SEQ"),
    ("{a: b}", "+MAP / =VAL :a / =VAL :b / -MAP"),
    ("[[], {},]", "+SEQ / +SEQ / -SEQ / +MAP / -MAP / -SEQ"),
    ('[a: b, "c":d]', '+SEQ / +MAP / =VAL :a / =VAL :b / -MAP / +MAP / =VAL "c / =VAL :d / -MAP / -SEQ'),
    ("[? a : b, : d, ? ]",
     "+SEQ / +MAP / =VAL :a / =VAL :b / -MAP / +MAP / =VAL : / =VAL :d / -MAP / +MAP / =VAL : / =VAL : / -MAP / -SEQ"),
    ("{&x a, ? b, ? : c, : d, *x :}",
     "+MAP / =VAL &1 :a / =VAL : / =VAL :b / =VAL : / =VAL : / =VAL :c / =VAL : / =VAL :d / =ALI *1 / =VAL : / -MAP"),
    ("[\n a # x\n ,b]", "+SEQ / =VAL :a / =VAL :b / -SEQ"),
    ("&x !t a # c\n", "=VAL &1 <!t> :a"),
    ('[!!t, !<u> &x\t"b"]', '+SEQ / =VAL <tag:yaml.org,2002:t> : / =VAL &1 <u> "b / -SEQ'),
    ("[ {a: b}:c]", "+SEQ / +MAP / +MAP / =VAL :a / =VAL :b / -MAP / =VAL :c / -MAP / -SEQ"),
    ("[a - b]", "+SEQ / =VAL :a - b / -SEQ"),
    ("a b \n\n c", "=VAL :a b\\nc"),
    ("a\n\t\n \tb", "=VAL :a\\nb"),
    ('[\'it\'\'s\n\n so\', "a\n b"]', '+SEQ / =VAL \'it\'s\\nso / =VAL "a b / -SEQ'),
    ("[a::]", "+SEQ / +MAP / =VAL :a: / =VAL : / -MAP / -SEQ"),
    ("[?:]", "+SEQ / +MAP / =VAL :? / =VAL : / -MAP / -SEQ"),
    ('{"a" # c\n :b}', '+MAP / =VAL "a / =VAL :b / -MAP'),
    ("- a\n- b", "+SEQ / =VAL :a / =VAL :b / -SEQ"),
    ("- a\t\n- b \t# c", "+SEQ / =VAL :a / =VAL :b / -SEQ"),
    ("k:\t# c\n  - a\n  -\t", "+MAP / =VAL :k / +SEQ / =VAL :a / =VAL : / -SEQ / -MAP"),
    ("a: b\n\t# c\n", "+MAP / =VAL :a / =VAL :b / -MAP"),
    ("- a\n \t\n- b", "+SEQ / =VAL :a / =VAL :b / -SEQ"),
    ("k:\n\t\n  - a", "+MAP / =VAL :k / +SEQ / =VAL :a / -SEQ / -MAP"),
    ("- [a,\n\t# c\n  b]", "+SEQ / +SEQ / =VAL :a / =VAL :b / -SEQ / -SEQ"),
    ("- |\n  a\n\t# c", "+SEQ / =VAL |a\\n / -SEQ"),
    ("-\ta", "+SEQ / =VAL :a / -SEQ"),
    ("k\t: a", "+MAP / =VAL :k / =VAL :a / -MAP"),
    ("k: \ta", "+MAP / =VAL :k / =VAL :a / -MAP"),
    ("k:\n \ta", "+MAP / =VAL :k / =VAL :a / -MAP"),
    ("&x\t!t a", "=VAL &1 <!t> :a"),
    ("- &x\t|\n  a\n", "+SEQ / =VAL &1 |a\\n / -SEQ"),
    ("a:: b\nc :: d", "+MAP / =VAL :a: / =VAL :b / =VAL :c : / =VAL :d / -MAP"),
    ("-: a\n:: b", "+MAP / =VAL :- / =VAL :a / =VAL :: / =VAL :b / -MAP"),
    ("a: b\nc:\n  - d", "+MAP / =VAL :a / =VAL :b / =VAL :c / +SEQ / =VAL :d / -SEQ / -MAP"),
    ("a:\n- b\n-\nc : d", "+MAP / =VAL :a / +SEQ / =VAL :b / =VAL : / -SEQ / =VAL :c / =VAL :d / -MAP"),
    ("- - a\n  - b\n# x\n- c:", "+SEQ / +SEQ / =VAL :a / =VAL :b / -SEQ / +MAP / =VAL :c / =VAL : / -MAP / -SEQ"),
    ("? a\n: b\n? - c", "+MAP / =VAL :a / =VAL :b / +SEQ / =VAL :c / -SEQ / =VAL : / -MAP"),
    ("&x\na: !t # c\n\n *x : 'b'\n", "+MAP &1 / =VAL :a / +MAP <!t> / =ALI *1 / =VAL 'b / -MAP / -MAP"),
    ("k:\n  &x\n  - a", "+MAP / =VAL :k / +SEQ &1 / =VAL :a / -SEQ / -MAP"),
    ("!t\n&x\n- a", "+SEQ &1 <!t> / =VAL :a / -SEQ"),
    ("- &x # c\n |\n a\n", "+SEQ / =VAL &1 |a\\n / -SEQ"),
    ("--- |\n a\n", "+DOC --- / =VAL |a\\n / -DOC"),
    ("- &x >-1 # x\n a\n b\n\n   c\n\n- d\n", "+SEQ / =VAL &1 >a b\\n\\n  c / =VAL :d / -SEQ"),
    ("a:\n\n b\n", "+MAP / =VAL :a / =VAL :b / -MAP"),
    ("- |\n  a\n # x\n- b", "+SEQ / =VAL |a\\n / =VAL :b / -SEQ"),
    ("a: |1-\n  b\n", "+MAP / =VAL :a / =VAL | b / -MAP"),
    (": a", "+MAP / =VAL : / =VAL :a / -MAP"),
    ("a: b\n:\n: c", "+MAP / =VAL :a / =VAL :b / =VAL : / =VAL : / =VAL : / =VAL :c / -MAP"),
    ("k:\n  : a", "+MAP / =VAL :k / +MAP / =VAL : / =VAL :a / -MAP / -MAP"),
    ("? : a\n: b", "+MAP / +MAP / =VAL : / =VAL :a / -MAP / =VAL :b / -MAP"),
    ("? ? a\n: b", "+MAP / +MAP / =VAL :a / =VAL : / -MAP / =VAL :b / -MAP"),
    ("k: |\na: |+\n\n", "+MAP / =VAL :k / =VAL | / =VAL :a / =VAL |\\n / -MAP"),
    ("- |", "+SEQ / =VAL | / -SEQ"),
    ("- |+\n a\n ", "+SEQ / =VAL |a\\n\\n / -SEQ"),
    ("? [a]\n\n # x\n:\n- b\n", "+MAP / +SEQ / =VAL :a / -SEQ / +SEQ / =VAL :b / -SEQ / -MAP"),
    ("# x\n ", ""),
    ("%YAML 1.2\n%TAG !e! t:\n%x y\n--- a", "+DOC --- / =VAL :a / -DOC"),
    ("--- |+\na\n\n--- # x\n---\nb\n# y\n... \nc\n",
     "+DOC --- / =VAL |a\\n\\n / -DOC / +DOC --- / =VAL : / -DOC / +DOC --- / =VAL :b / -DOC / +DOC / =VAL :c / -DOC"),
    ("\ufeffa\n...\n\n\ufeffb", "+DOC / =VAL :a / -DOC / +DOC / =VAL :b / -DOC"),
    ("[a\r\n ,b]\n", "+SEQ / =VAL :a / =VAL :b / -SEQ"),
    ("%TAG ! !t\n%TAG !! u\n--- &x\n- *x", "+DOC --- / +SEQ &1 / =ALI *1 / -SEQ / -DOC"),
    ("--- a\n\t\n...\n\t# c", "+DOC --- / =VAL :a / -DOC"),
    ("!\n...\n# c\n\ufeff\n", "=VAL <!> :"),
    ("... # x\n...", ""),
    ("...\na\n...\n# x\n...\nb", "+DOC / =VAL :a / -DOC / +DOC / =VAL :b / -DOC"),
    ("# x\n\ufeff\ufeff...\n\ufeff# x\na", "=VAL :a"),
    ("a\n\ufeff", "=VAL :a"),
    ("--- a\n\ufeff---\nb", "+DOC --- / =VAL :a / -DOC / +DOC --- / =VAL :b / -DOC"),
    ("a: b\n\ufeff\n# x\n\ufeff...\nc", "+DOC / +MAP / =VAL :a / =VAL :b / -MAP / -DOC / +DOC / =VAL :c / -DOC"),
    ("--- |\n a\n\ufeff", "+DOC --- / =VAL |a\\n / -DOC"),
    ("[a: b]", "+SEQ / +MAP / =VAL :a / =VAL :b / -MAP / -SEQ"),
    ("", ""),
    ("[]", "+SEQ / -SEQ"),
    ('{\'a\': "b" # c\n}', '+MAP / =VAL \'a / =VAL "b / -MAP'),
    ("{'a':b}", "+MAP / =VAL 'a / =VAL :b / -MAP"),
    ("[&x a, *x]", "+SEQ / =VAL &1 :a / =ALI *1 / -SEQ"),
    ("- a: b\n- c:\n", "+SEQ / +MAP / =VAL :a / =VAL :b / -MAP / +MAP / =VAL :c / =VAL : / -MAP / -SEQ"),
    ("- &a b\n- *a", "+SEQ / =VAL &1 :b / =ALI *1 / -SEQ"),
    ("a: >1-\n  b\n c\n", "+MAP / =VAL :a / =VAL > b\\nc / -MAP"),
    ("%TAG !e! t:\n--- !e!u v\n", "+DOC --- / =VAL <t:u> :v / -DOC"),
    ("\ufeffa\n...\n", "=VAL :a"),
    ('{"a":[1,true]}', '+MAP / =VAL "a / +SEQ / =VAL :1 / =VAL :true / -SEQ / -MAP'),
    ("a:\n- b\nc: d", "+MAP / =VAL :a / +SEQ / =VAL :b / -SEQ / =VAL :c / =VAL :d / -MAP"),
    ("- &a x\n- *a\n- &a y\n- *a", "+SEQ / =VAL &1 :x / =ALI *1 / =VAL &2 :y / =ALI *2 / -SEQ"),
    ("&a [*a]", "+SEQ &1 / =ALI *1 / -SEQ"),
    ("!%C3%A9 x", "=VAL <!é> :x"),
    ("---\n", "+DOC --- / =VAL : / -DOC"),
    ("\ufeff---\n", "+DOC --- / =VAL : / -DOC"),
    ("\ufeff\n\ufeff---\n", "+DOC --- / =VAL : / -DOC"),
    ("---\n...\n\ufeff---\n", "+DOC --- / =VAL : / -DOC / +DOC --- / =VAL : / -DOC"),
    ("a:", "+MAP / =VAL :a / =VAL : / -MAP"),
    ("a\n--- b", "+DOC / =VAL :a / -DOC / +DOC --- / =VAL :b / -DOC"),
    (":", "+MAP / =VAL : / =VAL : / -MAP"),
    ("- : a", "+SEQ / +MAP / =VAL : / =VAL :a / -MAP / -SEQ"),
    ("? a\n: b", "+MAP / =VAL :a / =VAL :b / -MAP"),
    ("a\n... # c\n", "=VAL :a"),
    ("[! : ]", "+SEQ / +MAP / =VAL <!> : / =VAL : / -MAP / -SEQ"),
]

# A text that has such events only where prefixes of tags are kept for later documents.
KEPT = [
    ("%TAG !p! x:\n--- !p!A a\n--- !p!B b\n", "+DOC --- / =VAL <x:A> :a / -DOC / +DOC --- / =VAL <x:B> :b / -DOC"),
    ("%TAG !p! x:\n--- !p!A a\n...\n%TAG !p! y:\n--- !p!B b\n--- !p!C c\n",
     "+DOC --- / =VAL <x:A> :a / -DOC / +DOC --- / =VAL <y:B> :b / -DOC / +DOC --- / =VAL <y:C> :c / -DOC"),
]

# Texts of the grammar whose forest has no events: an alias has no anchor in its document, or a handle no prefix.
WITHOUT_EVENTS = ["&a x\n--- *a\n", "*a", "- *a\n- &a b", "!p!A a", *(text for text, _ in KEPT)]

# Texts that the standard derives and the grammar leaves out, by these exceptions alone.
EXCEPTIONS = [
    ("E1", "a:\tb"), ("E1 E2", "?\ta"), ("E2", '?\t"a"'), ("E2", "?\t\n"), ("E2", "?\n\t\n"), ("E2", "[? \ta]"),
    ("E3", "{[]\n:a}"), ("E4", "[a -]"), ("E5", "|1\n---"), ("E5", "|\n \n---"), ("E5", "- |3\n # c\n- b"),
    ("E6", "|\n\ta\n"), ("E7", "!<!a>: b"), ("E8", "?"),
]

# Texts that have no forest without the exceptions either.
REFUSED = [
    "[,]", "[,a]", "- &x a\n- {*x: b}", "%YAML 1.2\n%YAML 1.2\n---\n", " \ufeffa", "a\n\ufeffb", "[- a]", "@a",
    "|12\n a\n", "[a]#x\n", "- &b x\n- &a *b", "a:\n\ta", "- a\n\t- b", ": - a", "- |\n a\n \ufeff", "- |\n a\n\t\n- b",
    "  - a\n- b", "a\nb: c", "a: - b",
]

# An answer that is not taken from the text.
WRONG = [
    ("- a", "+SEQ / =VAL : a / -SEQ"),
    ("a:\n b", "+MAP / =VAL :a / =VAL : b / -MAP"),
    ("--- |\na\n---\nb\n", "+DOC --- / =VAL |a\\n---\\nb\\n / -DOC"),
    ('"a\n--- b"', '=VAL "a --- b'),
    ("|\n a\x00b\n", "=VAL |a\x00b\\n"),
    (": !a\n", "+MAP / =VAL : / =VAL <!> :a / -MAP"),
    ("!a", "=VAL <!> :a"),
    (": !a#b\n", "+MAP / =VAL : / =VAL <!a> : / -MAP"),
    (": |\n a#b\n", "+MAP / =VAL : / =VAL |a / -MAP"),
    ("--- |\n a#b\n", "+DOC --- / =VAL |a / -DOC"),
    ("%TAG !e!t:x\n--- !u v\n", "+DOC --- / =VAL <e!t:xu> :v / -DOC"),
    (": |\n a\n", "+MAP / =VAL : / =VAL :| a / -MAP"),
    (": [a, b]\n", "+MAP / =VAL : / +SEQ / =VAL :a, b / -SEQ / -MAP"),
    ("{a", "+MAP / =VAL :a / =VAL : / -MAP"),
    ("a", "+MAP / =VAL :a / =VAL : / -MAP"),
    ("[a]", "+SEQ / +MAP / =VAL :a / =VAL : / -MAP / -SEQ"),
    (":", "+MAP / =VAL : / +MAP / -MAP / -MAP"),
    (": :", "+MAP / =VAL : / =VAL : / -MAP"),
    (": :", "+MAP / =VAL : / =VAL : / =VAL : / =VAL : / -MAP"),
    ("? :", "+MAP / =VAL : / =VAL : / -MAP"),
    ("- a\n-", "+SEQ / =VAL :a - / -SEQ"),
    ("-\n -", "+SEQ / =VAL : / =VAL : / -SEQ"),
    ("-a", "+SEQ / =VAL :a / -SEQ"),
    ("[:a]", "+SEQ / +MAP / =VAL : / =VAL :a / -MAP / -SEQ"),
    ("&c a: b", "+MAP &1 / =VAL :a / =VAL :b / -MAP"),
    ("&c a: b\n: v\n", "+MAP &1 / =VAL :a / =VAL :b / =VAL : / =VAL :v / -MAP"),
    ("[a]", "+SEQ / -SEQ"),
    ("a", "=VAL :b"),
    (" a: |1\n   b", "+MAP / =VAL :a / =VAL |  b\\n / -MAP"),
    ("a:b", "+MAP / =VAL :a / =VAL :b / -MAP"),
    ("['a',:b]", "+SEQ / =VAL 'a / +MAP / =VAL : / =VAL :b / -MAP / -SEQ"),
    ("[|1\n]\n", "+SEQ / =VAL | / -SEQ"),
    ("- a\n - b", "+SEQ / =VAL :a / =VAL :b / -SEQ"),
    (" - a\n- b", "+SEQ / =VAL :a / =VAL :b / -SEQ"),
    ("? a\n ? b", "+MAP / =VAL :a / =VAL : / =VAL :b / =VAL : / -MAP"),
    ("a: b\n c: d", "+MAP / =VAL :a / =VAL :b / =VAL :c / =VAL :d / -MAP"),
    (":\n:", "+MAP / =VAL : / +MAP / =VAL : / =VAL : / -MAP / -MAP"),
    ("-\n- a", "+SEQ / +SEQ / =VAL :a / -SEQ / -SEQ"),
    ("a:\n b: c\n d: e", "+MAP / =VAL :a / +MAP / =VAL :b / =VAL :c / -MAP / =VAL :d / =VAL :e / -MAP"),
    ("- a: b", "+MAP / +SEQ / =VAL :a / -SEQ / =VAL :b / -MAP"),
    (": :\na :", "+MAP / =VAL : / +MAP / =VAL : / =VAL :a / =VAL : / =VAL : / -MAP / -MAP"),
    ("a:\n b:\nc: d", "+MAP / =VAL :a / +MAP / =VAL :b / =VAL :c / =VAL : / =VAL :d / -MAP / -MAP"),
    (":\na", "+MAP / =VAL : / =VAL :a / -MAP"),
    ('- - "a\nb"', '+SEQ / +SEQ / =VAL "a b / -SEQ / -SEQ'),
    ("a\n: b", "+MAP / =VAL :a / =VAL :b / -MAP"),
    ("?\n:", "+MAP / =VAL : / =VAL : / =VAL : / =VAL : / -MAP"),
    ("a" + " " * 1024 + ": b", "+MAP / =VAL :a / =VAL :b / -MAP"),
    ("- a", "+SEQ / -SEQ"),
    ("! :", "+MAP <!> / =VAL : / =VAL : / -MAP"),
    ("&a - b", "+SEQ &1 / =VAL :b / -SEQ"),
    ("   k:\n&x - a", "+MAP / =VAL :k / +SEQ &1 / =VAL :a / -SEQ / -MAP"),
    (": a", "+MAP / -MAP"),
    ("? ? a\n: b", "+MAP / +MAP / =VAL :a / =VAL :b / -MAP / =VAL : / -MAP"),
    ("[a\n:]", "+SEQ / +MAP / =VAL :a / =VAL : / -MAP / -SEQ"),
    ("[a:]", "+SEQ / =VAL :a / -SEQ"),
    ("&a x\n--- *a\n", "=VAL &1 :x / -DOC / +DOC --- / =ALI *1"),
    ("... a", "=VAL :a"),
    ("[! :]", "+SEQ / +MAP <!> / =VAL : / =VAL : / -MAP / -SEQ"),
    ("[&a a: b]", "+SEQ / +MAP &1 / =VAL :a / =VAL :b / -MAP / -SEQ"),
]

# A document that may come first, before a fault: another token is behind it.
FIRST = [
    ("a\n: [", "=VAL :a"), ('"a" b', '=VAL "a'), ("|\n a\n: [", "=VAL |a\\n"), ("--- ,", "+DOC --- / =VAL : / -DOC"),
]

# One that may not.
TOO_EARLY = [
    ("k: [a", "=VAL :k"), ('"k": [a', '=VAL "k'), ("[k] : [a", "+SEQ / =VAL :k / -SEQ"), ("*k : [a", "=ALI *1"),
    ("&k : [a", "=VAL &1 :"), ("a\n%b", "=VAL :a"), ("--- [a", "+DOC --- / =VAL : / -DOC"),
    ("a b", "=VAL :a"), ("a\n\tb", "=VAL :a"), ("a, b", "=VAL :a"), ("a:b", "=VAL :a"),
]


def lines_of(answer):
    """All lines of an answer."""
    lines = tuple(answer.split(" / ")) if answer else ()
    return ("+STR", *(lines if not lines or "+DOC" in lines[0] else ("+DOC", *lines, "-DOC")), "-STR")


def derived(text, exceptions=recognizer.ALL, keep=False):
    """The printed events of each forest of a text."""
    return [recognizer.printed(forest, keep) for forest in recognizer.Grammar(text, exceptions).forests()]


def is_taken(text, answer, keep=False):
    """Whether tokens that meet the definitions give the answer, whatever no definition asks."""
    found = answers.Search(text, 2, answers.OPEN).answers()
    return any(answers.events(parts, keep) == lines_of(answer) for parts in found)


def left_out():
    return [text for _, text in EXCEPTIONS] + REFUSED


def may_come_first(text, answer):
    """Whether a document may come first, whatever follows it."""
    documents = (answers.events(parts) for parts in answers.Search(text, 2, answers.OPEN).first_documents())
    return lines_of(answer)[1:-1] in documents


def wrong_rows():
    for text, answer, keep in [*((*row, False) for row in RIGHT), *((*row, True) for row in KEPT)]:
        shown = "".join(line.removesuffix(" ---") + "\n" for line in lines_of(answer))
        if derived(text, keep=keep) != [shown]:
            yield f"{text!r} stands for {derived(text, keep=keep)}"
        if not is_taken(text, answer, keep):
            yield f"{answer!r} is not taken from {text!r}"
    yield from (f"{text!r} stands for {derived(text)}" for text in WITHOUT_EVENTS if derived(text) != [None])
    yield from (f"{text!r} is of the grammar" for text in left_out() if derived(text))
    yield from (f"{text!r} is not left out by {names} alone" for names, text in EXCEPTIONS
                if not derived(text, recognizer.ALL - set(names.split(" "))))
    yield from (f"{text!r} is left out by an exception" for text in REFUSED if derived(text, frozenset()))
    yield from (f"{answer!r} is taken from {text!r}" for text, answer in WRONG + KEPT if is_taken(text, answer))
    yield from (f"{answer!r} may not begin {text!r}" for text, answer in FIRST if not may_come_first(text, answer))
    yield from (f"{answer!r} may begin {text!r}" for text, answer in TOO_EARLY if may_come_first(text, answer))


def main():
    wrong = list(wrong_rows())
    print(*wrong, f"{len(RIGHT + KEPT)} right answers, {len(left_out())} texts left out, {len(WITHOUT_EVENTS)} without "
          f"events, {len(WRONG + KEPT)} wrong answers and {len(FIRST + TOO_EARLY)} first documents: "
          f"{len(wrong)} are otherwise", sep="\n")
    return bool(wrong)


if __name__ == "__main__":
    sys.setrecursionlimit(1000000)
    threading.stack_size(512 << 20)
    status = []
    thread = threading.Thread(target=lambda: status.append(main()))
    thread.start()
    thread.join()
    sys.exit(status[0] if status else 2)
