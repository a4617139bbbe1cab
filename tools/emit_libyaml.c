/* Event lines to YAML text, as libyaml's emitter prints them with unicode on, no limit of width and implicit documents.
 *
 * The input is cases, each ended by a line ".". A line is an event: +STR -STR +DOC -DOC +SEQ -SEQ +MAP -MAP =VAL, where
 * a node may have " <TAG>" behind it, and a scalar then its style and its text. A style is Any, Plain, SingleQuoted or
 * Literal. Tags and texts are hexadecimal bytes. The output is, for each case, the count of its bytes, a line feed, its
 * bytes and a line feed. A refused case has the count -1 and the message.
 *
 * cc -o emit_libyaml emit_libyaml.c -lyaml
 */
#include <stdio.h>
#include <stdlib.h>
#include <string.h>
#include <yaml.h>

static unsigned char *out;
static size_t length, capacity;

static int write_bytes(void *data, unsigned char *bytes, size_t count) {
    (void)data;
    if (length + count > capacity) {
        capacity = 2 * (length + count);
        out = realloc(out, capacity);
    }
    memcpy(out + length, bytes, count);
    length += count;
    return 1;
}

/* The bytes that hexadecimal digits give, in place, with a NUL behind them. */
static size_t bytes_of(char *digits) {
    size_t count = 0;
    unsigned byte;
    while (sscanf(digits + 2 * count, "%2x", &byte) == 1) digits[count++] = (char)byte;
    digits[count] = 0;
    return count;
}

static yaml_scalar_style_t style_of(const char *name) {
    if (!strcmp(name, "Plain")) return YAML_PLAIN_SCALAR_STYLE;
    if (!strcmp(name, "SingleQuoted")) return YAML_SINGLE_QUOTED_SCALAR_STYLE;
    if (!strcmp(name, "Literal")) return YAML_LITERAL_SCALAR_STYLE;
    return YAML_ANY_SCALAR_STYLE;
}

/* The event of a line; the line is written over. */
static int event_of(char *line, yaml_event_t *event) {
    yaml_char_t *tag = NULL;
    char *rest = strlen(line) > 4 ? line + 5 : line + 4, *end;
    if (*rest == '<' && (end = strchr(rest, '>'))) {
        tag = (yaml_char_t *)rest + 1;
        rest = end[1] ? end + 2 : end + 1;
        *end = 0;
        bytes_of((char *)tag);
    }
    if (!strncmp(line, "+STR", 4)) return yaml_stream_start_event_initialize(event, YAML_UTF8_ENCODING);
    if (!strncmp(line, "-STR", 4)) return yaml_stream_end_event_initialize(event);
    if (!strncmp(line, "+DOC", 4)) return yaml_document_start_event_initialize(event, NULL, NULL, NULL, 1);
    if (!strncmp(line, "-DOC", 4)) return yaml_document_end_event_initialize(event, 1);
    if (!strncmp(line, "+SEQ", 4))
        return yaml_sequence_start_event_initialize(event, NULL, tag, !tag, YAML_ANY_SEQUENCE_STYLE);
    if (!strncmp(line, "-SEQ", 4)) return yaml_sequence_end_event_initialize(event);
    if (!strncmp(line, "+MAP", 4))
        return yaml_mapping_start_event_initialize(event, NULL, tag, !tag, YAML_ANY_MAPPING_STYLE);
    if (!strncmp(line, "-MAP", 4)) return yaml_mapping_end_event_initialize(event);
    char *text = strchr(rest, ' ');
    *text++ = 0;
    yaml_scalar_style_t style = style_of(rest);
    int count = (int)bytes_of(text);
    return yaml_scalar_event_initialize(event, NULL, tag, (yaml_char_t *)text, count, !tag, !tag, style);
}

int main(void) {
    char *line = NULL;
    size_t size = 0;
    ssize_t read;
    int open = 0, failed = 0;
    yaml_emitter_t emitter;
    while ((read = getline(&line, &size, stdin)) > 0) {
        if (line[read - 1] == '\n') line[--read] = 0;
        if (!open) {
            yaml_emitter_initialize(&emitter);
            yaml_emitter_set_unicode(&emitter, 1);
            yaml_emitter_set_width(&emitter, -1);
            yaml_emitter_set_output(&emitter, write_bytes, NULL);
            length = 0;
            open = 1;
            failed = 0;
        }
        if (!strcmp(line, ".")) {
            if (failed) {
                printf("-1\n%s\n", emitter.problem ? emitter.problem : "");
            } else {
                yaml_emitter_flush(&emitter);
                printf("%zu\n", length);
                fwrite(out, 1, length, stdout);
                putchar('\n');
            }
            yaml_emitter_delete(&emitter);
            open = 0;
        } else if (!failed) {
            yaml_event_t event;
            failed = !event_of(line, &event) || !yaml_emitter_emit(&emitter, &event);
        }
    }
    return 0;
}
