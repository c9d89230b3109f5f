/*
 * How much stack a call takes: stack FOLDER, the vectors. Each call runs in a thread whose stack was painted before, less
 * what an empty thread leaves; of signatures the most over all lines. Prints a line for each call.
 */
#define _GNU_SOURCE
#include "mb_library.h"

#include <pthread.h>
#include <stdio.h>
#include <stdlib.h>
#include <string.h>
#include <sys/mman.h>

enum { LENGTH = 1 << 20, PAINT = 0xA5 };

static uint8_t *key, *text, *bytes, listing[8192];
static size_t text_length, length;
static struct mb_details details;
static volatile uint32_t answer;

static void *nothing(void *given)
{
    return given;
}

static void *lms(void *given)
{
    answer = mb_lms_verify(key, text, text_length, bytes, length);
    return given;
}

static void *hss(void *given)
{
    answer = mb_hss_verify(key, text, text_length, bytes, length);
    return given;
}

static void *chain(void *given)
{
    answer = mb_chain_verify(key, bytes, length, 1, listing, sizeof listing, &details);
    return given;
}

static void *trust(void *given)
{
    answer = mb_trust(key, bytes, length, 1, text, text_length, &details);
    return given;
}

static size_t taken(void *(*call)(void *))
{
    uint8_t *stack = mmap(NULL, LENGTH, PROT_READ | PROT_WRITE, MAP_PRIVATE | MAP_ANONYMOUS, -1, 0);
    memset(stack, PAINT, LENGTH);
    pthread_attr_t attributes;
    pthread_t thread;
    pthread_attr_init(&attributes);
    pthread_attr_setstack(&attributes, stack, LENGTH);
    pthread_create(&thread, &attributes, call, NULL);
    pthread_join(thread, NULL);
    size_t left = 0;
    while (left < LENGTH && stack[left] == PAINT) {
        left++;
    }
    munmap(stack, LENGTH);
    return LENGTH - left;
}

static const char *folder;

static FILE *open_vectors(const char *name)
{
    char path[4096];
    snprintf(path, sizeof path, "%s/%s", folder, name);
    FILE *file = fopen(path, "rb");
    if (!file) {
        exit(2);
    }
    return file;
}

static uint8_t *bytes_of(const char *word, size_t *count)
{
    *count = strlen(word) / 2;
    uint8_t *out = malloc(*count + 1);
    for (size_t i = 0; i < *count; i++) {
        unsigned value;
        sscanf(word + 2 * i, "%2x", &value);
        out[i] = (uint8_t)value;
    }
    return out;
}

static uint8_t *whole(const char *name, size_t *count)
{
    FILE *file = open_vectors(name);
    uint8_t *out = malloc(1 << 20);
    *count = fread(out, 1, 1 << 20, file);
    fclose(file);
    return out;
}

/* The most that this call takes over the lines of a file. */
static void of_lines(const char *title, const char *name, void *(*call)(void *), size_t empty)
{
    FILE *file = open_vectors(name);
    char *line = NULL;
    size_t room = 0, most = 0, count;
    while (getline(&line, &room, file) > 0) {
        if (strncmp(line, "1 ", 2) != 0) {
            continue;
        }
        strtok(line, " ");
        key = bytes_of(strtok(NULL, " \n"), &count);
        text = bytes_of(strtok(NULL, " \n"), &text_length);
        bytes = bytes_of(strtok(NULL, " \n"), &length);
        size_t used = taken(call);
        most = used > most ? used : most;
    }
    printf("stack of %s: %zu bytes\n", title, most > empty ? most - empty : 0);
}

int main(int count, char **words)
{
    if (count != 2) {
        return 2;
    }
    folder = words[1];
    taken(nothing);
    size_t empty = taken(nothing), key_length;
    of_lines("mb_lms_verify", "lms.txt", lms, empty);
    of_lines("mb_hss_verify", "hss.txt", hss, empty);
    key = whole("maker", &key_length);
    bytes = whole("chain", &length);
    text = (uint8_t *)"allow all alive\n";
    text_length = 16;
    printf("stack of mb_chain_verify: %zu bytes\n", taken(chain) - empty);
    printf("stack of mb_trust: %zu bytes\n", taken(trust) - empty);
    return 0;
}
