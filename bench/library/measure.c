/*
 * Verifies signatures on request, and tells how long that took: measure FILE, of lines VERDICT KEY TEXT SIGNATURE in
 * hexadecimal, all of which verify. A key of 56 bytes is one of LMS, and one of 60 of HSS. To a line ROW CALLS of standard
 * input, with rows from 0, it verifies that row so many times, and prints the nanoseconds of processor time that the calls
 * took and how many hashes, which the plain verifier alone counts. With -DPLAIN it has that one, and else the library.
 */
#define _POSIX_C_SOURCE 200809L
#include <stdio.h>
#include <stdlib.h>
#include <string.h>
#include <time.h>

#ifdef PLAIN
#include "plain.h"
#define LMS_VERIFY plain_lms_verify
#define HSS_VERIFY plain_hss_verify
#else
#include "mb_library.h"
#define LMS_VERIFY mb_lms_verify
#define HSS_VERIFY mb_hss_verify
static long plain_hashes;
#endif

enum { ROWS = 64, LMS_KEY = 56, HSS_KEY = 60 };

struct signed_text {
    uint8_t *key, *text, *signature;
    size_t key_length, text_length, signature_length;
};

static struct signed_text rows[ROWS];

static long long nanoseconds(void)
{
    struct timespec time;
    clock_gettime(CLOCK_PROCESS_CPUTIME_ID, &time);
    return time.tv_sec * 1000000000LL + time.tv_nsec;
}

static uint8_t *bytes_of(const char *word, size_t *length)
{
    *length = strlen(word) / 2;
    uint8_t *bytes = malloc(*length + 1);
    for (size_t i = 0; i < *length; i++) {
        unsigned value;
        sscanf(word + 2 * i, "%2x", &value);
        bytes[i] = (uint8_t)value;
    }
    return bytes;
}

static int read_rows(FILE *file)
{
    char *line = NULL;
    size_t room = 0;
    int count = 0;
    while (count < ROWS && getline(&line, &room, file) > 0) {
        struct signed_text *row = &rows[count++];
        strtok(line, " ");
        row->key = bytes_of(strtok(NULL, " \n"), &row->key_length);
        row->text = bytes_of(strtok(NULL, " \n"), &row->text_length);
        row->signature = bytes_of(strtok(NULL, " \n"), &row->signature_length);
        if (row->key_length != LMS_KEY && row->key_length != HSS_KEY) {
            return 0;
        }
    }
    free(line);
    return count;
}

static bool verify(const struct signed_text *row)
{
    return (row->key_length == LMS_KEY ? LMS_VERIFY : HSS_VERIFY)(row->key, row->text, row->text_length, row->signature,
                                                                  row->signature_length);
}

int main(int count, char **words)
{
    FILE *file = count == 2 ? fopen(words[1], "r") : NULL;
    int last = file ? read_rows(file) : 0, row;
    long calls;
    while (last && scanf("%d %ld", &row, &calls) == 2 && row >= 0 && row < last) {
        long long began = nanoseconds();
        plain_hashes = 0;
        for (long i = 0; i < calls; i++) {
            if (!verify(&rows[row])) {
                fprintf(stderr, "row %d does not verify\n", row);
                return 1;
            }
        }
        printf("%lld %ld\n", nanoseconds() - began, plain_hashes);
        fflush(stdout);
    }
    return last ? 0 : 2;
}
