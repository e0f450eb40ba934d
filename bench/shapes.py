"""Kinds of text that stress one thing each: `SHAPES` has for each name a function that makes a text of about so many
bytes. A parser that is fast on files may be slow on one of these."""
from inputs import counted, repeated


def enclosed(front, lines, back):
    """A text whose middle has about so many bytes."""
    return lambda size: front + lines(size) + back


def each(piece):
    return lambda size: repeated(piece, size)


def numbered(line):
    return lambda size: counted(lambda at: line.replace("@", str(at)), size)


def nested(size):
    """Mappings in one another, whose indentation is most of the text."""
    depth = int(size**0.5)
    return "".join(" " * at + f"k{at}:\n" for at in range(depth)) + " " * depth + "v: 1\n"


def many_anchors(size):
    names = counted(lambda at: f"- &anchor{at} x\n", size // 4)
    return names + counted(lambda at: f"- *anchor{at % 900}\n", size - size // 4)


CJK, CYRILLIC = "日本語の文章を東京都で書く", "комментарий на русском языке"
THAI, ARABIC = "ภาษาไทยเป็นภาษา", "هذا نص باللغة العربية"

COMMENTS_AND_LINES = {
    "comment_lines": enclosed("", each("# a comment of a line of text here\n"), "a: 1\n"),
    "comment_short": enclosed("", each("#\n"), "a: 1\n"),
    "comment_indented": enclosed("a:\n", each("    # a comment of a line of text\n"), "  b: 1\n"),
    "comment_after": numbered("k@: v # comment here\n"),
    "comment_accents": enclosed("", each("# déjà vu, ça va être très bien là-bas\n"), "a: 1\n"),
    "comment_cyrillic": enclosed("", each(f"# {CYRILLIC}\n"), "a: 1\n"),
    "comment_cjk": enclosed("", each(f"# {CJK}\n"), "a: 1\n"),
    "comment_cjk_after": numbered(f"k@: v # {CJK}\n"),
    "crlf": numbered("key@: value @\r\n"),
    "cr": numbered("key@: value @\r"),
    "crlf_comments": enclosed("", each("# a comment of a line of text here\r\n"), "a: 1\n"),
    "crlf_literal": enclosed("k: |\n", each("  a line of text\r\n"), ""),
    "lines_empty": enclosed("a: 1\n", each("\n"), "b: 2\n"),
    "lines_of_spaces": enclosed("a: 1\n", each("     \n"), "b: 1\n"),
    "lines_of_tabs": enclosed("a: 1\n", each("\t\n"), "b: 1\n"),
    "spaces_trailing": each("- a        \n"),
    "tabs_alone": each("\t"),
}

SCALARS = {
    "plain_cyrillic": numbered("- ключ @ значение слова\n"),
    "plain_cjk": numbered("- 日本語の文章 @ 東京都\n"),
    "plain_nbsp": numbered("- a\u00a0b\u00a0@\n"),
    "plain_lines": numbered("- some words on a line\n  and more of them\n  and the last @\n"),
    "plain_lines_short": enclosed("- ", each("ab\n  "), "a\n"),
    "plain_lines_of_one": enclosed("- ", each("a\n  "), "a\n"),
    "plain_lines_empty": enclosed("k: a", each("\n"), "  b\n"),
    "plain_blanks": enclosed("- ", each("a   b  c    "), "a\n"),
    "plain_tabs": enclosed("- ", each("a\tb\t"), "a\n"),
    "plain_long": enclosed("- ", each("x"), "\n"),
    "plain_words": enclosed("- ", each("word "), "end\n"),
    "plain_colons": each("- a:b:c d:e f:g\n"),
    "plain_hashes": each("- a#b#c#d#e#f#g\n"),
    "plain_quotes": each("- it's the user's \"text\"\n"),
    "plain_brackets": each("- a[b]{c},d\n"),
    "plain_percent": numbered("- 50% of @%\n"),
    "plain_at": lambda size: counted(lambda at: f"- user{at}@example.com!\n", size),
    "plain_hyphens": each("- a-b-c -d -e\n"),
    "plain_urls": numbered("- https://example.com/path/@?a=b&c=d#frag\n"),
    "plain_paths": each("- C:\\Users\\name\\file.txt\n"),
    "plain_dates": numbered("t@: 2026-11-25T19:10:00Z\n"),
    "double_cjk": numbered('- "日本語の文章 @ 東京都"\n'),
    "double_thai": numbered(f'- "{THAI} @"\n'),
    "double_emoji": numbered('- "😀😁😂 @"\n'),
    "double_separators": numbered('- "a\u0085b\u2028c @"\n'),
    "double_lines": numbered('- "some words on a line\n  and more of them\n  and the last @"\n'),
    "double_lines_short": enclosed('- "', each("ab\n  "), 'a"\n'),
    "double_lines_of_one": enclosed('- "', each("a\n  "), 'a"\n'),
    "double_lines_empty": enclosed('k: "a', each("\n"), '  b"\n'),
    "double_blanks": enclosed('- "', each("a   b  c    "), 'a"\n'),
    "double_u_escapes": each('- "' + "\\u00e9" * 20 + '"\n'),
    "double_escapes": each('- "C:\\\\dir\\\\file \\"x\\" \\n"\n'),
    "double_escaped_breaks": enclosed('- "', each("a\\\n"), '"\n'),
    "double_escaped_lines": each('- "a b c\\\n  d e f"\n'),
    "single_cjk": numbered("- '日本語の文章 @ 東京都'\n"),
    "single_long": enclosed("- '", each("x"), "'\n"),
    "single_lines": numbered("- 'some words on a line\n  and more of them\n  and the last @'\n"),
    "single_apostrophes": each("- 'it''s the user''s text'\n"),
    "single_quotes_only": enclosed("- '", each("''"), "'\n"),
    "single_unfinished": enclosed("- '", each("word\n  "), ""),
    "single_unfinished_short": enclosed("- '", each("a\n"), ""),
    "single_log_lines": numbered("- 'time: 2026-11-25 19:10:00 level=info msg=\"request @ served\"'\n"),
    "literal_short": numbered("k@: |\n  text\n"),
    "literal_long_lines": enclosed("k: |\n", each("  " + "word " * 40 + "\n"), ""),
    "literal_of_one": enclosed("k: |\n", each("  a\n"), ""),
    "literal_lines_empty": enclosed("k: |\n  a\n", each("\n"), "  b\n"),
    "literal_indented": enclosed("k: |\n", each(" " * 40 + "x\n"), ""),
    "literal_cjk": enclosed("k: |\n", each(f"  {CJK}\n"), ""),
    "literal_arabic": enclosed("k: |\n", each(f"  {ARABIC}\n"), ""),
    "literal_base64": enclosed("k: |\n", each("  QUJDREVGR0hJSktMTU5PUFFSU1RVVldYWVphYmNkZWZnaGlqa2xtbm9w\n"), ""),
    "folded_short": numbered("k@: >-\n  text\n  more\n"),
    "folded_of_one": enclosed("k: >\n", each("  a\n"), ""),
    "folded_cjk": enclosed("k: >\n", each(f"  {CJK}\n"), ""),
}

FLOW = {
    "flow_empty_strings": enclosed("[", each('"",'), '""]'),
    "flow_spaced_strings": enclosed("[", each('"ab" , '), '"ab"]'),
    "flow_tags": enclosed("[", each("!t ab, "), "ab]"),
    "flow_empty_sequences": enclosed("[", each("[],"), "[]]"),
    "flow_empty_mappings": enclosed("[", each("{},"), "{}]"),
    "flow_empty_values": each("- {a: , b: }\n"),
    "flow_lines_mappings": numbered("- {a: @, b: x}\n"),
    "flow_lines_sequences": numbered("- [@, a, b, c]\n"),
    "flow_deep": each("- " + "[" * 100 + "]" * 100 + "\n"),
    "flow_pairs": enclosed("[", each("a: b, "), "c]"),
    "flow_question_pairs": enclosed("[", each("? a, "), "b]\n"),
    "flow_keys": enclosed("{", numbered("k@, "), "z}"),
    "flow_questions": enclosed("{", numbered("? k@ : v, "), "z}"),
    "flow_lines": enclosed("[\n", each("  1,\n"), "  1\n]\n"),
    "flow_spaces": each("- [ [ a , b ] , { c : d } ]\n"),
    "flow_comments": enclosed("[\n", each("  1, # one\n"), "  1\n]\n"),
    "flow_cjk": enclosed("[", numbered("東京都@, "), "a]"),
    "flow_values": numbered("k@: [a, b]\n"),
    "flow_wide_and_deep": enclosed("{a: " * 200 + "{", numbered("k@: @, "), "}" + "}" * 200),
    "json_strings": enclosed("[", numbered('"string @",'), '""]'),
    "json_keys": enclosed("{", numbered('"k@":@,'), '"z":0}'),
    "json_deep": each('- ' + '{"a":' * 200 + "1" + "}" * 200 + "\n"),
    "json_arrays": enclosed("[", each("[1,2,3],"), "[]]"),
    "json_words": enclosed("[", each("true,false,null,"), "1]"),
    "json_floats": enclosed("[", numbered("@.00007e-3,"), "1]"),
    "json_escapes": enclosed("[", each('"a\\"b\\\\c\\/d\\n",'), "1]"),
    "json_u_escapes": enclosed("[", each('"\\u00e9\\u4e2d",'), "1]"),
    "json_indented": enclosed("[\n", each("        1,\n"), "        1\n]\n"),
    "json_spaced_colons": enclosed("[\n", each('  {"key" : "value of it", "n" : 12},\n'), "  {}\n]\n"),
}

BLOCK = {
    "block_keys": numbered("k@:\n"),
    "block_pairs": numbered("a@: b\n"),
    "block_nested_mappings": numbered("a@:\n  b:\n    c:\n      d: e\n"),
    "block_deep_mappings": nested,
    "block_sequence_of_mappings": numbered("- a: @\n  b: c\n"),
    "block_dashes": each("- a\n"),
    "block_dashes_empty": each("-\n"),
    "block_dashes_nested": each("- - a\n"),
    "block_sequences_nested": each("-\n  -\n    - a\n"),
    "block_indentless": numbered("k@:\n- a\n- b\n"),
    "block_questions": each("? a\n"),
    "block_explicit": numbered("? k@\n: v\n"),
    "block_complex_keys": each("? [a, b]\n: {c: d}\n"),
    "block_numbers": numbered("- @\n"),
    "block_nulls": numbered("k@: ~\n"),
    "block_keys_aligned": numbered("key@:                  value\n"),
    "block_indented_by_8": numbered("k@:\n        - a\n        - b\n"),
    "block_keys_cyrillic": numbered("ключ@: да\n"),
    "block_keys_quoted": numbered('"k@": v\n'),
    "block_keys_single_quoted": numbered("'k@': 'v'\n"),
    "block_keys_long": numbered("k" * 100 + "@: v\n"),
    "block_keys_and_values_long": numbered("k" * 100 + "@: " + "v" * 100 + "\n"),
    "documents": each("---\na\n...\n"),
    "documents_short": each("---\n"),
    "documents_directive": each("%YAML 1.2\n---\na\n...\n"),
    "documents_literal": each("--- |\n  text\n"),
    "documents_anchor": each("--- &a x\n"),
    "documents_mark": each("\ufeff--- a\n...\n"),
    "documents_mark_short": each("\ufeff---\n"),
}

PROPERTIES = {
    "anchors": numbered("- &a@ x\n"),
    "anchors_same": each("- &a x\n"),
    "anchors_long_names": numbered("- &name_of_anchor_@ x\n"),
    "anchors_cjk": numbered("- &東京都@ x\n"),
    "aliases": enclosed("- &a x\n", each("- *a\n"), ""),
    "aliases_long": enclosed("- &" + "a" * 60 + " x\n", each("- *" + "a" * 60 + "\n"), ""),
    "aliases_many": many_anchors,
    "aliases_merged": enclosed("x: &d {a: 1}\n", numbered("k@:\n  <<: *d\n  b: @\n"), ""),
    "tags": each("- !!str x\n"),
    "tags_local": each("- !t x\n"),
    "tags_handle": enclosed("%TAG !e! tag:example.com,2026:\n---\n", each("- !e!x y\n"), ""),
    "tags_percent": each("- !a%41%42 y\n"),
    "tags_percent_accents": each("- !a%C3%A9%C3%A9 y\n"),
    "tags_verbatim": each("- !<t> x\n"),
    "tags_and_anchors": numbered("- !!str &a@ x\n"),
}

SHAPES = {**COMMENTS_AND_LINES, **SCALARS, **FLOW, **BLOCK, **PROPERTIES}
