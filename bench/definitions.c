/* How many definitions a second are checked: the loan, and the largest there is. */
#define _POSIX_C_SOURCE 199309L
#include <stdio.h>
#include <string.h>
#include <time.h>

#include "jirvelko.h"

enum { ACTIVITIES = 32, LINKS = 128, CONNECTORS = 256, TEXT = 60 };

static uint8_t definition[16384];
static size_t length;

static void byte(unsigned value) { definition[length++] = (uint8_t)value; }

static void count(unsigned value) {
    byte(value % 256);
    byte(value / 256);
}

/* A text, with spaces behind it up to this length. */
static void text(const char *words, size_t size) {
    byte((unsigned)size);
    for (const char *c = words; *c; c++) byte((unsigned char)*c);
    for (size_t i = strlen(words); i < size; i++) byte(' ');
}

static void loan(void) {
    static const unsigned links[][2] = {{0, 1}, {0, 2}, {1, 3}, {2, 3}};
    static const unsigned connectors[][5] = {{0, 0, 1, 0, 0}, {3, 0, 2, 0, 0}};
    static const char *const texts[] = {"f0 <= 300", "f0 > 300", "true", "true",
                                        "true", "L0", "L1", "L2 or L3"};
    length = 0;
    count(4);
    for (unsigned a = 0; a < 4; a++) {
        count(10 * (a + 1));
        byte(0);
        byte(0);
    }
    count(4);
    for (unsigned l = 0; l < 4; l++) {
        byte(links[l][0]);
        byte(links[l][1]);
    }
    count(2);
    for (unsigned c = 0; c < 2; c++)
        for (unsigned i = 0; i < 5; i++) byte(connectors[c][i]);
    count(8);
    for (unsigned t = 0; t < 8; t++) text(texts[t], strlen(texts[t]));
}

/* Links from each activity to the next few, the last activities first, so that paths are long and found late. */
static void far_links(unsigned links[LINKS][2]) {
    unsigned m = 0;
    for (unsigned step = 1; m < LINKS; step++)
        for (unsigned a = ACTIVITIES - step; a-- > 0 && m < LINKS; m++) {
            links[m][0] = a;
            links[m][1] = a + step;
        }
}

/* A join text that names as many of the incoming links as it has room for. */
static void join(unsigned links[LINKS][2], unsigned activity) {
    char words[TEXT + 1] = "true";
    for (unsigned l = 0; l < LINKS; l++) {
        char word[16];
        int size = snprintf(word, sizeof word, " or L%u", l);
        if (links[l][1] == activity && strlen(words) + (size_t)size <= TEXT) strcat(words, word);
    }
    text(words, TEXT);
}

static void largest(void) {
    unsigned links[LINKS][2];
    far_links(links);
    length = 0;
    count(ACTIVITIES);
    for (unsigned a = 0; a < ACTIVITIES; a++) {
        count(1000 + a);
        byte(a);
        byte(0);
    }
    count(LINKS);
    for (unsigned l = 0; l < LINKS; l++) {
        byte(links[l][0]);
        byte(links[l][1]);
    }
    count(CONNECTORS);
    for (unsigned c = 0; c < CONNECTORS; c++) {
        unsigned target = c / 8;
        byte(target);
        byte(c % 8);
        byte(target == 0 ? 1 : 2);
        byte(0);
        byte(c % 8);
    }
    count(LINKS + ACTIVITIES);
    for (unsigned l = 0; l < LINKS; l++)
        text("f0 <= 300 and (f1 > -12 or not f2 = f3) and f4 != 9999999999", TEXT);
    for (unsigned a = 0; a < ACTIVITIES; a++) join(links, a);
}

static double seconds(void) {
    struct timespec now;
    clock_gettime(CLOCK_MONOTONIC, &now);
    return (double)now.tv_sec + (double)now.tv_nsec / 1e9;
}

static void measure(const char *name) {
    jirvelko_verdict verdict = jirvelko_check_definition(definition, length);
    printf("%s: %zu bytes, cause %u, place %u, ", name, length, verdict.cause, verdict.place);
    unsigned long turns = 0;
    unsigned long sum = 0;
    double start = seconds(), end = start;
    while (end < start + 1) {
        for (int i = 0; i < 100; i++) sum += jirvelko_check_definition(definition, length).cause;
        turns += 100;
        end = seconds();
    }
    printf("%.0f a second (%.2f microseconds each)%s\n", (double)turns / (end - start),
           (end - start) / (double)turns * 1e6, sum == verdict.cause * turns ? "" : ", not always the same");
}

int main(void) {
    loan();
    measure("loan");
    largest();
    measure("largest");
    return 0;
}
