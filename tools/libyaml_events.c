/*
 * Prints the events that libyaml makes of texts, a line each, in the words of `yaml_tool events --full`.
 *
 * usage: libyaml_events FILE..     With several files a line `@@ FILE` stands before the lines of each.
 *
 * The encoding is set to UTF-8, as serde_yaml sets it. libyaml counts characters; what is printed are bytes.
 */
#include <stdio.h>
#include <stdlib.h>
#include <string.h>
#include <yaml.h>

/* A text, and where each of its characters begins. */
struct text {
    unsigned char *bytes;
    size_t length, characters, *starts;
};

static struct text read_text(const char *name) {
    struct text text = {0};
    FILE *file = fopen(name, "rb");
    size_t room = 0, count = 1;
    if (!file) { perror(name); exit(2); }
    while (count > 0) {
        if (room - text.length < 4096) text.bytes = realloc(text.bytes, room += 65536);
        text.length += count = fread(text.bytes + text.length, 1, 4096, file);
    }
    fclose(file);
    text.starts = malloc((text.length + 1) * sizeof *text.starts);
    for (size_t i = 0; i < text.length; i++)
        if ((text.bytes[i] & 0xC0) != 0x80) text.starts[text.characters++] = i;
    return text;
}

static size_t byte_of(const struct text *text, yaml_mark_t mark) {
    return mark.index < text->characters ? text->starts[mark.index] : text->length;
}

static void print_mark(const struct text *text, yaml_mark_t mark) {
    printf("%zu:%zu:%zu ", byte_of(text, mark), mark.line, mark.column);
}

/* Bytes with escapes for what is not printable ASCII, and for one byte more. */
static void print_bytes(const unsigned char *bytes, size_t length, char numbered) {
    for (size_t i = 0; i < length; i++) {
        if (bytes[i] == '\\') fputs("\\\\", stdout);
        else if (bytes[i] == '\n') fputs("\\n", stdout);
        else if (bytes[i] == '\t') fputs("\\t", stdout);
        else if (bytes[i] < 32 || bytes[i] > 126 || bytes[i] == numbered) printf("\\x%02x", bytes[i]);
        else putchar(bytes[i]);
    }
}

static void print_start(const char *word, yaml_char_t *anchor, yaml_char_t *tag) {
    fputs(word, stdout);
    if (anchor) { fputs(" &", stdout); print_bytes(anchor, strlen((char *)anchor), ' '); }
    if (tag) { fputs(" <", stdout); print_bytes(tag, strlen((char *)tag), '>'); putchar('>'); }
}

static void print_scalar(yaml_event_t *event) {
    static const char signs[] = {':', ':', '\'', '"', '|', '>'}; /* in the order of yaml_scalar_style_t */
    print_start("=VAL", event->data.scalar.anchor, event->data.scalar.tag);
    printf(" %c", signs[event->data.scalar.style]);
    print_bytes(event->data.scalar.value, event->data.scalar.length, 0);
}

static void print_event(const struct text *text, yaml_event_t *event) {
    if (event->type == YAML_SCALAR_EVENT) {
        yaml_mark_t mark = event->start_mark;
        printf("%zu..%zu:%zu:%zu ", byte_of(text, mark), byte_of(text, event->end_mark), mark.line, mark.column);
    } else print_mark(text, event->start_mark);
    switch (event->type) {
    case YAML_STREAM_START_EVENT: fputs("+STR", stdout); break;
    case YAML_STREAM_END_EVENT: fputs("-STR", stdout); break;
    case YAML_DOCUMENT_START_EVENT: fputs("+DOC", stdout); break;
    case YAML_DOCUMENT_END_EVENT: fputs("-DOC", stdout); break;
    case YAML_ALIAS_EVENT:
        fputs("=ALI *", stdout);
        print_bytes(event->data.alias.anchor, strlen((char *)event->data.alias.anchor), ' ');
        break;
    case YAML_SCALAR_EVENT: print_scalar(event); break;
    case YAML_SEQUENCE_START_EVENT:
        print_start("+SEQ", event->data.sequence_start.anchor, event->data.sequence_start.tag);
        break;
    case YAML_SEQUENCE_END_EVENT: fputs("-SEQ", stdout); break;
    case YAML_MAPPING_START_EVENT:
        print_start("+MAP", event->data.mapping_start.anchor, event->data.mapping_start.tag);
        break;
    case YAML_MAPPING_END_EVENT: fputs("-MAP", stdout); break;
    case YAML_NO_EVENT: break;
    }
    putchar('\n');
}

static void print_fault(const struct text *text, const yaml_parser_t *parser) {
    static const char *kinds[] = {"OTHER", "MEMORY", "READER", "SCANNER", "PARSER", "COMPOSER", "WRITER", "EMITTER"};
    print_mark(text, parser->problem_mark);
    printf("!ERR %s %zu %s\n", kinds[parser->error], (size_t)parser->problem_offset, parser->problem);
    if (parser->context) {
        print_mark(text, parser->context_mark);
        printf("!CONTEXT %s\n", parser->context);
    }
}

static void print_events(const char *name) {
    struct text text = read_text(name);
    yaml_parser_t parser;
    int going = yaml_parser_initialize(&parser);
    yaml_parser_set_encoding(&parser, YAML_UTF8_ENCODING);
    yaml_parser_set_input_string(&parser, text.bytes, text.length);
    while (going) {
        yaml_event_t event;
        if (!yaml_parser_parse(&parser, &event)) { print_fault(&text, &parser); break; }
        print_event(&text, &event);
        going = event.type != YAML_STREAM_END_EVENT;
        yaml_event_delete(&event);
    }
    yaml_parser_delete(&parser);
    free(text.bytes);
    free(text.starts);
}

int main(int count, char **names) {
    for (int i = 1; i < count; i++) {
        if (count > 2) printf("@@ %s\n", names[i]);
        print_events(names[i]);
    }
    return 0;
}
