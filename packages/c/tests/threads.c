/* Eight threads print and parse numbers and columns at once, under one format. Ends with status 1 where one found
 * another text. */
#include <num_format.h>
#include <pthread.h>
#include <stdio.h>
#include <string.h>

#define THREADS 8
#define ROUNDS 20000
#define ROWS 1000

static num_format format;

/* Whether multiples of a number, printed and parsed as a column, are as they were. */
static int is_column_kept(int64_t first) {
    int64_t numbers[ROWS], parsed[ROWS];
    int32_t offsets[ROWS + 1], statuses[ROWS];
    char bytes[ROWS * 27];
    size_t length;
    for (int64_t k = 0; k < ROWS; k++) numbers[k] = first * k;
    return num_format_print_column(&format, NUM_FORMAT_I64, numbers, sizeof numbers, NULL, 0, 0, offsets, sizeof offsets,
                                   NUM_FORMAT_I32, bytes, sizeof bytes, &length) == 0
        && num_format_parse_column(&format, NUM_FORMAT_I64, 0, offsets, sizeof offsets, NUM_FORMAT_I32, bytes, length,
                                   parsed, sizeof parsed, NULL, 0, 0, statuses, ROWS) == 0
        && memcmp(numbers, parsed, sizeof numbers) == 0;
}

/* Prints and parses the numbers of a thread. Returns null if all are as they were. */
static void *work(void *first) {
    for (int64_t k = 0; k < ROUNDS; k++) {
        int64_t number = *(const int64_t *)first * (k + 1), parsed = 0;
        char text[NUM_FORMAT_MAX];
        size_t at;
        int length = num_format_print_i64(&format, number, text, sizeof text);
        if (length < 1 || num_format_parse_strict_i64(&format, 64, text, (size_t)length, &parsed, &at) != 0 || parsed != number)
            return first;
    }
    return is_column_kept(*(const int64_t *)first) ? NULL : first;
}

int main(void) {
    pthread_t threads[THREADS];
    int64_t firsts[THREADS];
    int status = num_format_locale(&format, "de-CH", 5) != 0;
    for (int t = 0; t < THREADS; t++) {
        firsts[t] = t % 2 ? -1234567 * (t + 1) : 1000003 * (t + 1);
        if (pthread_create(&threads[t], NULL, work, &firsts[t]) != 0) return 2;
    }
    for (int t = 0; t < THREADS; t++) {
        void *wrong;
        pthread_join(threads[t], &wrong);
        if (wrong) {
            fprintf(stderr, "thread %d found another number\n", t);
            status = 1;
        }
    }
    return status;
}
