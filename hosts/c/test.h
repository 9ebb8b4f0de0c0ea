/* What the tests of this folder share: counts, memory between pages that may not be touched, stacks that show how far they were
 * used, and files. */
#ifndef TEST_H
#define TEST_H

#define _GNU_SOURCE
#include "docket.h"

#include <pthread.h>
#include <stdarg.h>
#include <stdio.h>
#include <stdlib.h>
#include <string.h>
#include <sys/mman.h>

#define PAGE ((size_t)4096)
#define PAINT 0xA5
#define STACK (2 * DOCKET_STACK_BYTES)

static int passed, failed;

/* Counts a test, and names one that has failed. */
static inline void count(int good, const char *what, ...) {
    if (good) {
        passed++;
        return;
    }
    failed++;
    va_list words;
    va_start(words, what);
    fputs("failed: ", stdout);
    vprintf(what, words);
    putchar('\n');
    va_end(words);
}

/* Prints the last line; the exit status. */
static inline int finish(void) {
    printf("%d passed, %d failed\n", passed, failed);
    return failed != 0;
}

/* The process ends where something is missing that no test is about. */
static inline void need(int there, const char *what) {
    if (!there) {
        perror(what);
        exit(1);
    }
}

/* The first of so many whole pages; the page before and the page after them may not be touched. */
static inline uint8_t *pages(size_t count) {
    uint8_t *all = mmap(NULL, (count + 2) * PAGE, PROT_NONE, MAP_PRIVATE | MAP_ANONYMOUS, -1, 0);
    need(all != MAP_FAILED, "mmap");
    need(count == 0 || mprotect(all + PAGE, count * PAGE, PROT_READ | PROT_WRITE) == 0, "mprotect");
    return all + PAGE;
}

/* How many pages so many bytes take. */
static inline size_t pages_for(size_t length) { return (length + PAGE - 1) / PAGE; }

/* So many bytes that end where a page begins that may not be touched. */
static inline void *room(size_t length) { return pages(pages_for(length)) + pages_for(length) * PAGE - length; }

/* Whether every byte is the paint. */
static inline int painted(const void *start, size_t length) {
    const uint8_t *bytes = start;
    size_t clean = 0;
    while (clean < length && bytes[clean] == PAINT) {
        clean++;
    }
    return clean == length;
}

/* Runs a function on a thread with a painted stack; how many of its bytes were written, the thread's own too. */
static inline size_t run_painted(void *(*run)(void *), void *given) {
    static uint8_t *stack;
    if (stack == NULL) {
        stack = room(STACK);
    }
    pthread_t thread;
    pthread_attr_t attributes;
    memset(stack, PAINT, STACK);
    pthread_attr_init(&attributes);
    need(pthread_attr_setstack(&attributes, stack, STACK) == 0, "a stack");
    need(pthread_create(&thread, &attributes, run, given) == 0, "a thread");
    pthread_join(thread, NULL);
    size_t clean = 0;
    while (clean < STACK && stack[clean] == PAINT) {
        clean++;
    }
    return STACK - clean;
}

/* Bytes in memory of their own. */
struct bytes {
    uint8_t *start;
    size_t length;
};

/* The bytes of the file whose name is the two words; a byte 0 follows them. */
static inline struct bytes read_file(const char *name, const char *end) {
    char path[4096];
    snprintf(path, sizeof path, "%s%s", name, end);
    FILE *file = fopen(path, "rb");
    need(file != NULL, path);
    struct bytes read = {NULL, 0};
    size_t more = 0;
    do {
        read.length += more;
        read.start = realloc(read.start, read.length + DOCKET_MOST_INPUT);
        need(read.start != NULL, path);
        more = fread(read.start + read.length, 1, DOCKET_MOST_INPUT, file);
    } while (more == DOCKET_MOST_INPUT);
    need(!ferror(file), path);
    fclose(file);
    read.length += more;
    read.start[read.length] = 0;
    return read;
}

/* A committed input and its listing. */
struct input {
    const char *name;
    struct bytes text, listing;
};

static inline struct input read_input(const char *name) {
    return (struct input){name, read_file(name, ".txt"), read_file(name, ".out")};
}

static inline void free_input(struct input *input) {
    free(input->text.start);
    free(input->listing.start);
}

/* How many bytes the first text of an input has: those up to the first ended line that begins `end=`, else all. */
static inline size_t first_text(const uint8_t *input, size_t length) {
    for (size_t start = 0; start < length;) {
        const uint8_t *last = memchr(input + start, '\n', length - start);
        if (last == NULL) {
            break;
        }
        size_t next = (size_t)(last - input) + 1;
        if (next - start >= 5 && memcmp(input + start, "end=", 4) == 0) {
            return next;
        }
        start = next;
    }
    return length;
}

#endif
