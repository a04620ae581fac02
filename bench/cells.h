/* The numbers of a cell, as cells.py writes them, and how calls over them are measured, for c.c and cpp.cpp.
 *
 * Each of these is compiled twice into one program: with -DIS_COPY, its calls of the library become those of a copy. */
#ifndef CELLS_H
#define CELLS_H

#include <dirent.h>
#include <stdbool.h>
#include <stdint.h>
#include <stdio.h>
#include <stdlib.h>
#include <string.h>
#include <time.h>

/* A text, which has a zero byte after it, and its length. */
typedef struct { char *text; size_t length; } word;

/* A cell: the fields that cells.py writes. */
typedef struct {
    char *name, *format;
    size_t count;
    int64_t *numbers;
    word *digits, *texts, *with_letter, *letters, *decimal_digits, *decimals;
} cell;

/* A call that is measured: what it does, and a function that makes it for each number. With `checks` the function returns
 * whether each result is the one expected. */
typedef struct {
    const char *operation, *call;
    bool (*run)(bool checks);
    /* Whether there is what it needs, where that is asked. */
    const bool *is_there;
} way;

/* What a copy shares with the rest of the program: the cell that is measured, and the calls of both, up to one without a
 * name. Before a cell is measured, `prepare` of each is called. */
#ifdef __cplusplus
#define SHARED extern "C"
#else
#define SHARED extern
#endif
SHARED cell now;
SHARED const way ours[], copy[];
SHARED void prepare_ours(void), prepare_copy(void);
#ifdef IS_COPY
#define OF_LIBRARY(name) name##copy
#else
#define OF_LIBRARY(name) name##ours
#endif

/* Keeps what was just written from being left out. */
static inline void use(const void *memory) { __asm__ volatile("" : : "r"(memory) : "memory"); }

static inline bool is_word(word expected, const char *text, long length) {
    return length == (long)expected.length && !memcmp(text, expected.text, expected.length);
}

static inline void *need(void *memory) {
    if (!memory) {
        perror("cells.h");
        exit(3);
    }
    return memory;
}

#ifndef IS_COPY
cell now;

static word copied(const char *text, size_t length) {
    word made = {(char *)need(calloc(length + 1, 1)), length};
    memcpy(made.text, text, length);
    return made;
}

static void read_cell(FILE *file) {
    const size_t most = 4096;
    char line[512];
    word **columns[] = {&now.digits, &now.texts, &now.with_letter, &now.letters, &now.decimal_digits, &now.decimals};
    const int length = sizeof columns / sizeof *columns;
    now.numbers = (int64_t *)need(calloc(most, sizeof *now.numbers));
    for (int k = 0; k < length; k++)
        *columns[k] = (word *)need(calloc(most, sizeof **columns[k]));
    for (now.count = 0; now.count < most && fgets(line, sizeof line, file); now.count++) {
        char *end;
        now.numbers[now.count] = strtoll(line, &end, 10);
        for (int k = 0; k < length; k++) {
            (*columns[k])[now.count] = copied(end + 1, strcspn(end + 1, "\t\n"));
            end += (*columns[k])[now.count].length + 1;
        }
    }
}

/* The nanoseconds that the processor worked for this thread. */
static double nanoseconds(void) {
    struct timespec time;
    clock_gettime(CLOCK_THREAD_CPUTIME_ID, &time);
    return (double)time.tv_sec * 1e9 + (double)time.tv_nsec;
}

/* Measures calls in turn, until each had so many seconds, and prints a line of five fields for each: what is done, the
 * cell, whose call it is, the call, and the nanoseconds for a number by the best batch, or `differs` where a result is
 * not the one expected. The first is this library's, and the second that of its copy. */
static void measure(const way *const *ways, size_t length, double seconds) {
    double best[16];
    for (size_t k = 0; k < length; k++)
        best[k] = 1e18;
    double end = nanoseconds() + seconds * 1e9 * (double)length;
    do {
        for (size_t k = 0; k < length; k++) {
            double start = nanoseconds();
            ways[k]->run(false);
            double time = (nanoseconds() - start) / (double)now.count;
            best[k] = time < best[k] ? time : best[k];
        }
    } while (nanoseconds() < end);
    for (size_t k = 0; k < length; k++) {
        const char *role = k == 0 ? "ours" : k == 1 ? "copy" : "other";
        printf("%s\t%s\t%s\t%s\t", ways[k]->operation, now.name, role, ways[k]->call);
        // No locale's decimal mark.
        const long hundredths = (long)(best[k] * 100);
        ways[k]->run(true) ? printf("%ld.%02ld\n", hundredths / 100, hundredths % 100) : puts("differs");
    }
}

/* Measures the calls of the library in each cell of i64 in the folder, beside those of others that do the same. */
static void measure_cells(const char *folder, void (*prepare)(void), const way *others, double seconds) {
    char path[4096];
    snprintf(path, sizeof path, "%s/cells", folder);
    DIR *cells = (DIR *)need(opendir(path));
    for (struct dirent *entry; (entry = readdir(cells));) {
        snprintf(path, sizeof path, "%s/cells/%s", folder, entry->d_name);
        if (strncmp(entry->d_name, "i64 ", 4))
            continue;
        FILE *file = (FILE *)need(fopen(path, "r"));
        now.name = entry->d_name;
        now.format = copied(now.name + 4, strcspn(now.name + 4, " ")).text;
        read_cell(file);
        fclose(file);
        prepare();
        prepare_ours();
        prepare_copy();
        for (size_t k = 0; ours[k].call; k++) {
            const way *ways[16] = {&ours[k], &copy[k]};
            size_t length = 2;
            for (const way *other = others; other->call; other++)
                if (!strcmp(other->operation, ours[k].operation) && (!other->is_there || *other->is_there))
                    ways[length++] = other;
            measure(ways, length, seconds);
        }
    }
    closedir(cells);
}
#endif
#endif
