/* mutants SEED COUNT: loads so many changed texts, looks at each row, its texts and its links, prints the rows again,
 * and asks for texts of faults. Ends with 1 where a row is not as the header says. To be run under a tool that finds
 * wrong accesses and leaks: make sanitized; valgrind --leak-check=full ./mutants 1 1000 */
#include "yaml_c.h"
#include <stdio.h>
#include <stdlib.h>
#include <string.h>

static const char *const seeds[] = {
    "name: web\nport: 80\ntags: [a, b]\nlabel: ~\nratio: 1.5\nsize: !exact 3\n",
    "- &x {name: b, port: &p 0x2}\n- *x\n- {<<: *x, label: *p}\n",
    "a: |\n  two\n  lines\nb: >-\n  folded\n  text\n\nc: \"a\\\n   b\\u00e9\\x41\"\n",
    "--- 1\n--- 2\n...\n--- [3\n",
    "%TAG !e! tag:example.com,2000:\n---\n!e!f {a: !!int '1', b: !!float x, ? [c]\n: d}\n",
    "- - - a\n    - 'it''s'\n  - c\n-\n  d: e # words\n  f:\n  - g\n",
    "[.inf, -.nan, 1e400, -5, 340282366920938463463374607431768211455, 017, yes, true, null]\n",
    "\xef\xbb\xbf\"\xc3\xa9\xf0\x9f\x98\x80\": &a [*a]\r\n!x y: ! z\r\n",
};
static const char marks[] = "\n\n  :-?,[]{}#&*!|>'\"%@`~.0123456789abefnu\t\r\\\xc3\xa9\xff";

static uint64_t state;

static size_t below(size_t most) {
  state ^= state << 13, state ^= state >> 7, state ^= state << 17;
  return most ? (size_t)(state >> 11) % most : 0;
}

/* a text of two seeds, with bytes changed, repeated and left out */
static size_t mutant(uint8_t *text) {
  size_t len = 0, n, parts = 1 + below(2);
  while (parts--) {
    const char *seed = seeds[below(sizeof seeds / sizeof *seeds)];
    size_t from = below(4) ? 0 : below(strlen(seed)), rest = strlen(seed) - from;
    memcpy(text + len, seed + from, rest), len += rest;
  }
  for (n = below(5); n && len; n--) {
    size_t at = below(len), some = 1 + below(len - at < 12 ? len - at : 12);
    switch (below(4)) {
    case 0: text[at] = (uint8_t)marks[below(sizeof marks - 1)]; break;
    case 1: memmove(text + at, text + at + some, len - at - some), len -= some; break;
    case 2: memmove(text + at + some, text + at, len - at), len += some; break;
    default: memmove(text + at + 1, text + at, len - at), len++, text[at] = (uint8_t)marks[below(sizeof marks - 1)];
    }
  }
  return len;
}

static void *fresh(size_t count, size_t size) {
  void *room = calloc(count ? count : 1, size);
  if (!room) exit(2);
  return room;
}

/* a row's links, and the sum of the bytes that it speaks of, which are read by that */
static int is_sound(const YamlRow *rows, size_t row, YamlSizes sizes, const uint8_t *text, size_t len,
                    const uint8_t *texts, uint64_t *sum) {
  const YamlRow *one = &rows[row];
  const uint8_t *from = one->text_in_source ? text : texts;
  uint64_t n, all = one->text_in_source ? len : sizes.texts;
  if (one->text_at > all || one->text_len > all - one->text_at) return 0;
  if (one->tag_at > sizes.texts || one->tag_len > sizes.texts - one->tag_at) return 0;
  for (n = 0; n < one->text_len; n++) *sum += from[one->text_at + n];
  for (n = 0; n < one->tag_len; n++) *sum += texts[one->tag_at + n];
  if (one->link >= sizes.rows) return 0;
  switch (one->kind) {
  case YAML_C_ALIAS: return one->link < row && rows[one->link].kind <= YAML_C_MAPPING;
  case YAML_C_SEQUENCE:
    return one->link > row && (rows[one->link].kind == YAML_C_SEQUENCE_END || rows[one->link].kind == YAML_C_FAULT);
  case YAML_C_MAPPING:
    return one->link > row && (rows[one->link].kind == YAML_C_MAPPING_END || rows[one->link].kind == YAML_C_FAULT);
  case YAML_C_DOCUMENT:
    if (one->low != 128 || one->high != 100 * (one->link - row - 1)) return 0;
    return one->link > row && (rows[one->link].kind == YAML_C_DOCUMENT_END || rows[one->link].kind == YAML_C_FAULT);
  default: return one->link == 0;
  }
}

int main(int argc, char **argv) {
  unsigned long count = argc == 3 ? strtoul(argv[2], NULL, 10) : 1000, faults = 0, printed = 0, n;
  uint64_t sum = 0;
  state = 88172645463325252u ^ (argc == 3 ? strtoul(argv[1], NULL, 10) : 1);
  for (n = 0; n < count; n++) {
    uint8_t *text = fresh(1024, 1), *exact, *texts = NULL, *out = NULL;
    size_t len = mutant(text), row;
    YamlRow *rows = NULL;
    YamlSizes sizes = {below(40), below(40)}, room;
    uint32_t answer = YAML_C_MORE_ROOM;
    /* of just its length, so that what is read behind it is found */
    exact = fresh(len, 1), memcpy(exact, text, len), free(text);
    while (answer == YAML_C_MORE_ROOM) {
      room = sizes, free(rows), free(texts);
      rows = fresh(room.rows, sizeof *rows), texts = fresh(room.texts, 1);
      answer = yaml_c_load(exact, len, rows, room.rows, texts, room.texts, &sizes);
    }
    if (answer != YAML_C_OK) return 2;
    for (row = 0; row < sizes.rows; row++) {
      if (!is_sound(rows, row, sizes, exact, len, texts, &sum)) return printf("text %lu, row %zu\n", n, row), 1;
      faults += rows[row].kind == YAML_C_FAULT;
    }
    room.texts = below(60), answer = YAML_C_MORE_ROOM;
    YamlSizes written = room;
    while (answer == YAML_C_MORE_ROOM) {
      free(out), out = fresh(written.texts, 1), room = written;
      answer = yaml_c_print(rows, sizes.rows, exact, len, texts, sizes.texts, out, room.texts, &written);
    }
    if (answer == YAML_C_NO_MEMORY) return 2;
    printed += answer == YAML_C_OK;
    answer = yaml_c_fault_text((uint32_t)below(9), &rows[sizes.rows - 1], texts, sizes.texts, exact, len, out,
                               room.texts, &written);
    sum += answer;
    free(exact), free(rows), free(texts), free(out);
  }
  printf("%lu texts, %lu faults, %lu printed again, sum %llu\n", count, faults, printed, (unsigned long long)sum);
  return 0;
}
