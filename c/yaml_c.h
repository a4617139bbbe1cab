/* yaml_c: YAML for C and Rust. Text to rows, and rows to text. ABI 1.
 *
 * Link libyaml_c.a and then $(dirname $(rt doc))/c/liblibc_c.a. Nothing is kept between calls, nothing is handed
 * out that is to be given back, and any thread may call at any time (but no signal handler). The caller gives the
 * room; where it is too little, the call answers YAML_C_MORE_ROOM and tells in `sizes` how much it takes, and is
 * called again with that.
 *
 * At each call: pointers are aligned, not null (for a length 0 any aligned address that is not null), valid for
 * their lengths, and initialized, room included (its bytes may be anything: calloc, or what a call before left
 * there); what is written to (`rows`, `texts`, `out`, `sizes`) overlaps nothing else. malloc, realloc and free are
 * one family. The stack has some 64 kB left.
 */
#ifndef YAML_C_H
#define YAML_C_H
#include <stddef.h>
#include <stdint.h>
#ifdef __cplusplus
extern "C" {
#endif

/* Answers. */
enum {
  YAML_C_OK = 0,        /* done: the first sizes->rows rows and sizes->texts bytes hold the answer */
  YAML_C_NO_MEMORY = 1, /* memory ran out; nothing is known of rows, texts, out, sizes */
  YAML_C_MORE_ROOM = 2, /* more room is wanted: sizes tells how much; nothing is known of rows, texts, out */
  YAML_C_REFUSED = 3    /* print: the rows are no stream (sizes->rows is a row that is wrong, or their number where
                           one is missing); fault_text: what was given is no UTF-8, no cause or no place. Never
                           answered by load */
};

/* What a row is. Of a scalar: what it is as a value of any kind, by its tag, style and text. */
enum {
  YAML_C_NULL = 0,
  YAML_C_BOOL = 1,      /* low: 0 or 1 */
  YAML_C_UNSIGNED = 2,  /* an integer without minus, below 2^128: low + high * 2^64 */
  YAML_C_SIGNED = 3,    /* an integer with minus, from -2^127: the same, as two's complement (-0 is 0) */
  YAML_C_FLOAT = 4,     /* float_bits: an IEEE double. Of NaN the bits are 0x7ff8000000000000 */
  YAML_C_STRING = 5,
  YAML_C_BYTES = 6,     /* a scalar whose text is not UTF-8; the parser makes none */
  YAML_C_MISFIT = 7,    /* a scalar whose tag says null, bool, int or float (see tag_kind), and whose text is none
                           such. As any value this is a fault: invalid value: string "x", expected null | a boolean
                           | an integer | a float. As a value of a type: see `word` */
  YAML_C_VOID = 8,      /* the node of an empty stream, as null */
  YAML_C_ALIAS = 9,     /* link: the row of the node that it stands for, which may hold the alias itself (low: the
                           same counted from the row behind DOCUMENT, which is 0) */
  YAML_C_SEQUENCE = 10, /* link: the row of its end, or the document's FAULT row where that cut it off */
  YAML_C_SEQUENCE_END = 11,
  YAML_C_MAPPING = 12,  /* keys and values by turns. link as a sequence's */
  YAML_C_MAPPING_END = 13,
  YAML_C_DOCUMENT = 14, /* a document begins. link: its last row, DOCUMENT_END or FAULT. low: how many nestings a
                           reading may go into (128). high: how many aliases a reading may follow in this document
                           (100 for each of its events) */
  YAML_C_DOCUMENT_END = 15,
  YAML_C_FAULT = 16,    /* what cut the document off, in place of DOCUMENT_END, with its printed text (place
                           included) and its place. What stands before it in the document was read well. Only the
                           last document can have a parser's fault; an unknown anchor cuts off any */
  YAML_C_FLOAT32 = 17   /* print only: low holds the bits of an IEEE single */
};

/* How a scalar stands in the source. */
enum { YAML_C_PLAIN = 0, YAML_C_SINGLE_QUOTED = 1, YAML_C_DOUBLE_QUOTED = 2, YAML_C_LITERAL = 3, YAML_C_FOLDED = 4 };

/* What the tag is. */
enum {
  YAML_C_NO_TAG = 0,
  YAML_C_LOCAL_TAG = 1, /* begins with '!' */
  YAML_C_NULL_TAG = 2,  /* tag:yaml.org,2002:null, as !!null */
  YAML_C_BOOL_TAG = 3,
  YAML_C_INT_TAG = 4,
  YAML_C_FLOAT_TAG = 5,
  YAML_C_OTHER_TAG = 6  /* any other, as !!str */
};

typedef struct {
  uint8_t kind;
  uint8_t word;     /* of a scalar that is plain or has a tag of null, bool, int or float: what its text would be
                       plain and without a tag: NULL (the empty text too), BOOL, UNSIGNED, SIGNED, FLOAT, STRING or
                       BYTES; low and high hold its value where it is BOOL, UNSIGNED or SIGNED. Of any other scalar
                       STRING. FLOAT here is told by grammar: plain 1e400 is FLOAT with has_float 0, and its kind
                       is STRING */
  uint8_t style;    /* of a scalar */
  uint8_t tag_kind; /* of a scalar, a sequence, a mapping */
  uint8_t text_in_source; /* 1: text_at counts in the source text (so it can be lent); 0: in texts */
  uint8_t has_float; /* 1: the text (of a scalar as for `word`) is a float by itself, whatever style and tag:
                        float_bits holds it. 12, 017, .inf have one; 0x1F, 1e400, x have none (0) */
  uint8_t ask_quotes; /* print only: 1: a string is written in quotes always (as a char is), never plain */
  uint8_t unused;   /* 0 */
  uint64_t text_at, text_len; /* the text of a scalar (escapes and breaks resolved), or of a fault */
  uint64_t tag_at, tag_len;   /* the tag, whole, always in texts */
  uint64_t line, column;      /* where it begins (of a fault: where it is), both counted from 0 */
  uint64_t index;             /* the same in bytes of the source */
  uint64_t low, high;
  uint64_t float_bits;
  uint64_t link;
} YamlRow; /* 96 bytes; rows of other kinds have 0 in fields that are not named for them */

typedef struct {
  uint64_t rows;
  uint64_t texts;
} YamlSizes;

/* The number of this ABI: 1. */
uint32_t yaml_c_version(void);

/* All documents of a text (any bytes), each as DOCUMENT, its rows, DOCUMENT_END or FAULT. There is always one
 * document. A text that is not YAML is no refusal: its fault is a row. sizes: rows and texts that the answer
 * takes. */
uint32_t yaml_c_load(const uint8_t *text, size_t text_len, YamlRow *rows, size_t row_room, uint8_t *texts,
                     size_t text_room, YamlSizes *sizes);

/* The YAML text of a stream of documents. rows are as load fills them, or made by hand: DOCUMENT, one node,
 * DOCUMENT_END for each document. A row's tag and text are found as in rows of load: text in `source` by
 * text_in_source, else in `texts`, tag in `texts` (tag_kind 0: no tag; any other: a tag, as `!name`). Written by
 * kind: NULL and VOID `null`; BOOL `true` or `false`; UNSIGNED, SIGNED decimal; FLOAT, FLOAT32 as short as reads
 * back, with `.0` where it is whole, `.inf`, `-.inf`, `.nan`; STRING its text, quoted or as a block where needed
 * to read back as a string. Refused: ALIAS, FAULT, BYTES, MISFIT, what is not UTF-8, a range outside of its texts,
 * and rows that are no stream. Other fields are not looked at. sizes->texts: bytes of out. */
uint32_t yaml_c_print(const YamlRow *rows, size_t row_count, const uint8_t *source, size_t source_len,
                      const uint8_t *texts, size_t texts_len, uint8_t *out, size_t out_room, YamlSizes *sizes);

/* Causes of faults of a reading or writing. */
enum {
  YAML_C_MESSAGE_AT = 0,      /* words, behind the path, at the place: `a.b: words at line 1 column 2` */
  YAML_C_MESSAGE = 1,         /* words alone */
  YAML_C_TOO_NESTED = 2,      /* recursion limit exceeded, at the place */
  YAML_C_TOO_MANY_FOLLOWS = 3,
  YAML_C_END_OF_STREAM = 4,   /* EOF while parsing a value */
  YAML_C_MANY_DOCUMENTS = 5,
  YAML_C_NO_BYTES = 6,
  YAML_C_NESTED_ENUM = 7      /* on writing */
};

/* The text of a fault. The place is line, column and index of a row; words and path (as `.`, `a.b`, `.[0].x`; `.`
 * alone is left out) are UTF-8. sizes->texts: bytes of out. */
uint32_t yaml_c_fault_text(uint32_t cause, const YamlRow *place, const uint8_t *words, size_t words_len,
                           const uint8_t *path, size_t path_len, uint8_t *out, size_t out_room, YamlSizes *sizes);

/* How a typed reading asks, without a look at a text (taken: a local tag that was read as a variant):
 *   bool     (style PLAIN, or LITERAL and tag_kind BOOL)  and word BOOL
 *   integers (style PLAIN, or LITERAL and tag_kind INT)   and word UNSIGNED (or SIGNED: for signed types only)
 *   f64      (style PLAIN, or LITERAL and tag_kind FLOAT) and has_float 1
 *   str      any scalar but BYTES
 *   absent   style PLAIN and (tag_kind NO_TAG or taken, and word NULL; or tag_kind NULL and kind NULL); or VOID
 *   an optional's fault: style PLAIN, tag_kind NULL, kind MISFIT
 *   empty    (a sequence, map, tuple of none) style PLAIN and text_len 0; or VOID
 */
#ifdef __cplusplus
}
#endif
#endif
