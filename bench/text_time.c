/* Times the way from the text of standard input to events by both parsers in one process: `text_time warm|fresh RUNS`.

   A run of each side follows the other: the port's `Events`, which hands out each event before it makes the next, and
   lets it go; libyaml, which does the same; the port's `parse`, whose list of events is let go at the end; and libyaml
   with all events kept in a list, and let go at the end. The time is
   the processor's for this thread, the kernel's share with it, so that other work on the machine counts only by what
   it does to the caches. `warm`: one process in which freed memory is kept. `fresh`: each run in a process of its own,
   forked before any memory was taken, as in a program that parses one text.

   Built with COUNT it counts memory in place of time: `text_time count`. */
#define _GNU_SOURCE
#include <malloc.h>
#include <stdint.h>
#include <stdio.h>
#include <stdlib.h>
#include <string.h>
#include <sys/wait.h>
#include <time.h>
#include <unistd.h>
#include <yaml.h>

/* What the port's library offers, and what it calls between its parts. */
uint64_t port_hand_out(const unsigned char *text, size_t len);
uint64_t port_parse(const unsigned char *text, size_t len);
void tick(uint32_t part);

enum { SIDES = 4 };
static const char *names[SIDES] = {"port", "libyaml", "port, list", "libyaml, list"};
static unsigned char *text;
static size_t len;

#ifdef COUNT
/* Each block is counted as malloc gives it. */
static size_t held, most, large;
void *__real_malloc(size_t size);
void *__real_realloc(void *block, size_t size);
char *__real_strdup(const char *text);
void __real_free(void *block);

static void *counted(void *block) {
    if (block) {
        held += malloc_usable_size(block) + 8;
        if (held > most)
            most = held;
        if (malloc_usable_size(block) > large)
            large = malloc_usable_size(block);
    }
    return block;
}

static void uncount(void *block) {
    if (block)
        held -= malloc_usable_size(block) + 8;
}

void *__wrap_malloc(size_t size) { return counted(__real_malloc(size)); }
char *__wrap_strdup(const char *from) { return counted(__real_strdup(from)); }

void *__wrap_realloc(void *block, size_t size) {
    void *moved;
    uncount(block);
    moved = __real_realloc(block, size);
    return counted(moved ? moved : block) ? moved : NULL;
}

void __wrap_free(void *block) {
    uncount(block);
    __real_free(block);
}

/* The port's allocator, in place of the toolchain's: whether there was memory, and where. */
struct got {
    uint64_t taken;
    void *block;
};

static struct got got(void *block) {
    struct got answer = {block != NULL, block ? block : (void *)16};
    return answer;
}

struct got rattle_alloc(size_t size, size_t alignment) { return got(__wrap_malloc(size ? size : alignment)); }
void rattle_dealloc(void *block) { __wrap_free(block); }

struct got rattle_realloc(void *block, size_t before, size_t size, size_t alignment) {
    (void)before;
    return got(__wrap_realloc(block, size ? size : alignment));
}

static struct { size_t held, most, large; } parts[3];

void tick(uint32_t part) {
    parts[part].held = held;
    parts[part].most = most;
    parts[part].large = large;
    if (part == 0)
        most = held, large = 0;
}
#else
static double parts[3];

void tick(uint32_t part) {
    struct timespec now;
    clock_gettime(CLOCK_THREAD_CPUTIME_ID, &now);
    parts[part] = now.tv_sec * 1e9 + now.tv_nsec;
}
#endif

static void begin(yaml_parser_t *parser) {
    yaml_parser_initialize(parser);
    yaml_parser_set_encoding(parser, YAML_UTF8_ENCODING);
    yaml_parser_set_input_string(parser, text, len);
}

static uint64_t libyaml_parse(void) {
    yaml_parser_t parser;
    yaml_event_t event;
    uint64_t count = 0;
    int ended = 0;
    tick(0);
    begin(&parser);
    while (!ended && yaml_parser_parse(&parser, &event)) {
        count++;
        ended = event.type == YAML_STREAM_END_EVENT;
        yaml_event_delete(&event);
    }
    yaml_parser_delete(&parser);
    tick(1);
    tick(2);
    return count;
}

static uint64_t libyaml_list(void) {
    yaml_parser_t parser;
    yaml_event_t *events = NULL;
    size_t count = 0, room = 0, i;
    int ended = 0;
    tick(0);
    begin(&parser);
    while (!ended) {
        if (count == room) {
            room = room ? 2 * room : 4;
            events = realloc(events, room * sizeof *events);
        }
        if (!yaml_parser_parse(&parser, &events[count]))
            break;
        ended = events[count++].type == YAML_STREAM_END_EVENT;
    }
    yaml_parser_delete(&parser);
    tick(1);
    for (i = 0; i < count; i++)
        yaml_event_delete(&events[i]);
    free(events);
    tick(2);
    return count;
}

static uint64_t run(int side) {
    return side == 0   ? port_hand_out(text, len)
           : side == 1 ? libyaml_parse()
           : side == 2 ? port_parse(text, len)
                       : libyaml_list();
}

#ifndef COUNT
static double least[SIDES][2];
static uint64_t events[SIDES];

static void note(int side, uint64_t count, double whole, double parsed) {
    events[side] = count;
    if (!least[side][0] || whole < least[side][0])
        least[side][0] = whole;
    if (!least[side][1] || parsed < least[side][1])
        least[side][1] = parsed;
}

/* One run in a process of its own. */
static void forked(int side) {
    double told[3];
    int ends[2];
    if (pipe(ends))
        exit(1);
    if (!fork()) {
        told[0] = run(side);
        told[1] = parts[2] - parts[0];
        told[2] = parts[1] - parts[0];
        _exit(write(ends[1], told, sizeof told) != sizeof told);
    }
    if (read(ends[0], told, sizeof told) != sizeof told)
        exit(1);
    wait(NULL);
    close(ends[0]);
    close(ends[1]);
    note(side, told[0], told[1], told[2]);
}
#endif

int main(int argc, char **argv) {
    size_t room = 1 << 26;
    int side, turn;
    text = malloc(room);
    len = fread(text, 1, room, stdin);
#ifdef COUNT
    (void)argc;
    (void)argv;
    (void)turn;
    for (side = 0; side < SIDES; side++) {
        uint64_t count = run(side);
        printf("%s\t%lu\t%zu\t%zu\t%zu\n", names[side], count, parts[1].most - parts[0].held,
               parts[1].held - parts[0].held, parts[1].large);
    }
#else
    int runs = argc > 2 ? atoi(argv[2]) : 1, fresh = argc > 1 && !strcmp(argv[1], "fresh");
    if (!fresh) {
        mallopt(M_MMAP_MAX, 0);
        mallopt(M_TRIM_THRESHOLD, 2147483647);
        mallopt(M_TOP_PAD, 64 << 20);
    }
    for (turn = 0; turn < runs; turn++)
        for (side = 0; side < SIDES; side++) {
            int which = turn % 2 ? SIDES - 1 - side : side;
            if (fresh)
                forked(which);
            else {
                uint64_t count = run(which);
                note(which, count, parts[2] - parts[0], parts[1] - parts[0]);
            }
        }
    for (side = 0; side < SIDES; side++)
        printf("%s\t%lu\t%.0f\t%.0f\n", names[side], events[side], least[side][0], least[side][1]);
#endif
    return 0;
}
