/* Checks the call for C hosts on a table of cases. */
#include <pthread.h>
#include <stdio.h>
#include <stdlib.h>
#include <string.h>

#include "lozghemi.h"

#define FAULT(number, place) (((uint64_t)(number) << 32) + (place))

struct row {
    const char *vocabulary, *filter, *message;
    uint64_t expected;
};

static const struct row rows[] = {
    {"D\nG\nS\n", "//G", "<D><G/></D>", 1},
    {"D\nG\nS\n", "/G", "<D><G/></D>", 0},
    {"D\nG\nS\n", "/D/*/S", "<D><G><S/></G></D>", 1},
    {"D\nG\nS\n", "/D/*/S", "<D><S/></D>", 0},
    {"D\nG\nS\n", "/*", "<Z/>", 1},
    {"", "/D", "<D/>", FAULT(11, 0)},
    {"D", "/D", "<D/>", FAULT(12, 0)},
    {"D\n1\n", "/D", "<D/>", FAULT(13, 2)},
    {"D\nD\n", "/D", "<D/>", FAULT(15, 2)},
    {"D\n", "", "<D/>", FAULT(21, 0)},
    {"D\n", "/D/D/D/D/D/D/D/D", "<D/>", 0},
    {"D\n", "/D/D/D/D/D/D/D/D/D", "<D/>", FAULT(22, 16)},
    {"D\n", "D", "<D/>", FAULT(23, 0)},
    {"D\n", "//", "<D/>", FAULT(24, 2)},
    {"D\n", "/aaaaaaaaaaaaaaaaaaaaaaaaaaaaaaaaa", "<D/>", FAULT(25, 1)},
    {"D\n", "/D/X", "<D/>", FAULT(26, 3)},
    {"D\n", "/D", "x<D/>", FAULT(32, 0)},
    {"D\n", "/D", "<D><!x></D>", FAULT(33, 3)},
    {"D\n", "/D", "<D", FAULT(34, 0)},
    {"D\n", "/D", "<D a=b/>", FAULT(35, 5)},
    {"D\n", "/D", "<D/><D/>", FAULT(36, 4)},
    {"D\n", "/D", "<D></G>", FAULT(38, 3)},
    {"D\n", "/D", "", FAULT(39, 0)},
    {"D\n", "/D", "<D a=\"x>y\"/>", 1},
    /* the first fault in the order vocabulary, filter, message */
    {"D", "D", "x", FAULT(12, 0)},
    {"D\n", "D", "x", FAULT(23, 0)},
};

static int failed, passed;

static void judge(const char *what, uint64_t got, uint64_t expected) {
    if (got == expected) {
        passed++;
        return;
    }
    failed++;
    printf("%s: %u at %u, expected %u at %u\n", what, LOZGHEMI_NUMBER(got), LOZGHEMI_PLACE(got), LOZGHEMI_NUMBER(expected), LOZGHEMI_PLACE(expected));
}

static uint64_t ask(const char *vocabulary, size_t v, const char *filter, size_t f, const char *message, size_t m) {
    return lozghemi_hit((const uint8_t *)vocabulary, v, (const uint8_t *)filter, f, (const uint8_t *)message, m);
}

/* n times <D>, and as many ends */
static uint64_t nested(size_t n) {
    char text[33 * 7 + 1];
    size_t at = 0;
    for (size_t i = 0; i < n; i++, at += 3) memcpy(text + at, "<D>", 3);
    for (size_t i = 0; i < n; i++, at += 4) memcpy(text + at, "</D>", 4);
    return ask("D\n", 2, "/D", 2, text, at);
}

/* 513 names, the lines of the first 512 four bytes long */
static uint64_t crowded(size_t names) {
    char text[513 * 4 + 1];
    size_t at = 0;
    for (size_t i = 0; i < names; i++) at += (size_t)sprintf(text + at, "%c%c%c\n", 'a' + (int)(i / 64), 'a' + (int)(i / 8 % 8), 'a' + (int)(i % 8));
    return ask(text, at, "/*", 2, "<D/>", 4);
}

static uint64_t sized(size_t bytes) {
    char *text = malloc(bytes);
    if (text == NULL) return 0;
    memset(text, ' ', bytes);
    memcpy(text, "<D/>", 4);
    uint64_t answer = ask("D\n", 2, "/D", 2, text, bytes);
    free(text);
    return answer;
}

static void *ask_there(void *answer) {
    *(uint64_t *)answer = ask("D\nG\n", 4, "//G", 3, "<D><G/></D>", 11);
    return NULL;
}

/* the same call from a thread with a stack of so many bytes */
static uint64_t stacked(size_t bytes) {
    uint64_t answer = 0;
    pthread_t thread;
    pthread_attr_t attr;
    if (pthread_attr_init(&attr) != 0 || pthread_attr_setstacksize(&attr, bytes) != 0) return 0;
    if (pthread_create(&thread, &attr, ask_there, &answer) != 0) return 0;
    pthread_join(thread, NULL);
    return answer;
}

int main(void) {
    for (size_t i = 0; i < sizeof rows / sizeof rows[0]; i++) {
        const struct row *r = &rows[i];
        judge(r->message, ask(r->vocabulary, strlen(r->vocabulary), r->filter, strlen(r->filter), r->message, strlen(r->message)), r->expected);
    }
    judge("32 nested", nested(32), 1);
    judge("33 nested", nested(33), FAULT(37, 96));
    judge("512 names", crowded(512), 1);
    judge("513 names", crowded(513), FAULT(14, 2048));
    judge("1048576 bytes", sized(1048576), 1);
    judge("1048577 bytes", sized(1048577), FAULT(31, 0));
    judge("no vocabulary", ask(NULL, 0, "/D", 2, "<D/>", 4), FAULT(11, 0));
    judge("no filter", ask("D\n", 2, NULL, 0, "<D/>", 4), FAULT(21, 0));
    judge("no message", ask("D\n", 2, "/D", 2, NULL, 0), FAULT(39, 0));
    judge("a stack of 40 kB", stacked(40 * 1024), 1);
    printf("host: %d passed, %d failed\n", passed, failed);
    return failed != 0;
}
