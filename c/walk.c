/* walk FILE: prints each scalar of a file with its place, as FILE:LINE:COLUMN: TEXT; faults so on standard error. */
#include "yaml_c.h"
#include <stdio.h>
#include <stdlib.h>

static uint8_t *contents(const char *name, size_t *len) {
  FILE *file = fopen(name, "rb");
  uint8_t *text = malloc(1), *more;
  for (*len = 0; file && text; *len += fread(text + *len, 1, 65536, file)) {
    if (feof(file) || ferror(file) || !(more = realloc(text, *len + 65536))) break;
    text = more;
  }
  if (!file || !feof(file)) free(text), text = NULL;
  if (file) fclose(file);
  return text;
}

int main(int argc, char **argv) {
  size_t len, row;
  uint8_t *source = argc == 2 ? contents(argv[1], &len) : NULL, *texts = NULL;
  YamlRow *rows = NULL;
  YamlSizes sizes = {64, 1024}, room;
  uint32_t answer = source ? YAML_C_MORE_ROOM : YAML_C_NO_MEMORY;
  while (answer == YAML_C_MORE_ROOM) {
    room = sizes, free(rows), free(texts);
    rows = calloc(room.rows + 1, sizeof *rows), texts = calloc(room.texts + 1, 1);
    answer = rows && texts ? yaml_c_load(source, len, rows, room.rows, texts, room.texts, &sizes) : YAML_C_NO_MEMORY;
  }
  int failed = answer != YAML_C_OK;
  if (failed) fprintf(stderr, "walk: no file, or no memory for it\n");
  for (row = 0; answer == YAML_C_OK && row < sizes.rows; row++) {
    const YamlRow *one = &rows[row];
    const uint8_t *text = (one->text_in_source ? source : texts) + one->text_at;
    if (one->kind > YAML_C_MISFIT && one->kind != YAML_C_FAULT) continue;
    fprintf(one->kind == YAML_C_FAULT ? stderr : stdout, "%s:%lu:%lu: %.*s\n", argv[1],
            (unsigned long)one->line + 1, (unsigned long)one->column + 1, (int)one->text_len, text);
    failed |= one->kind == YAML_C_FAULT;
  }
  return free(source), free(rows), free(texts), failed;
}
