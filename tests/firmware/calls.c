#include "calls.h"

#include <stdio.h>
#include <stdlib.h>
#include <string.h>

enum { GUARD = 64, STACK = 8192 };

long checks, failures;
const char *part = "";

void check(int holds, const char *what, const char *file, int line)
{
    checks++;
    if (!holds) {
        failures++;
        printf("%s:%d: %s: %s\n", file, line, part, what);
    }
}

/* ---- lent bytes */

uint8_t *at(const struct lent *l)
{
    return l->block + GUARD;
}

void lend(struct lent *l, size_t length)
{
    free(l->block);
    l->length = length;
    l->block = malloc(length + 2 * GUARD);
    if (l->block == NULL) {
        puts("no memory");
        exit(2);
    }
    memset(l->block, 0xa5, length + 2 * GUARD);
    memset(at(l), 0, length);
}

static int guarded(const struct lent *l)
{
    size_t i;
    for (i = 0; i < GUARD; i++)
        if (l->block[i] != 0xa5 || at(l)[l->length + i] != 0xa5)
            return 0;
    return 1;
}

void copy_to(struct lent *to, const struct lent *from)
{
    lend(to, from->length);
    memcpy(at(to), at(from), from->length);
}

int same(const struct lent *a, const struct lent *b)
{
    return a->length == b->length && memcmp(at(a), at(b), a->length) == 0;
}

/* Rows are not lent as zeros. record/src/main.rs has the same bytes. */
static uint8_t row_byte(size_t i)
{
    return (uint8_t)(i * 167 + 13) | 1;
}

struct lent volume, before, rows;
static struct lent name;

int rows_as_lent_from(size_t i)
{
    for (; i < rows.length; i++)
        if (at(&rows)[i] != row_byte(i))
            return 0;
    return 1;
}

/* ---- the calls */

struct medium medium;

void all_allowed(void)
{
    medium.left = STORE_ALL_WRITES;
    medium.unreadable = STORE_ALL_READABLE;
    medium.entropy = 0;
}

enum call { MOUNT, FORMAT, DELETE, LIST };

/* Which numbers each call may give, and which it gave. */
static const char *const call_names[] = {"mount", "format", "delete", "list"};
static const unsigned may[] = {
    1u << 2 | 1u << 4 | 1u << 5 | 1u << 6 | 1u << 7,
    1u << 2 | 1u << 4 | 1u << 6 | 1u << 12,
    1u << 1 | 1u << 2 | 1u << 4 | 1u << 5 | 1u << 6 | 1u << 7 | 1u << 9 | 1u << 12,
    1u << 1 | 1u << 2 | 1u << 4 | 1u << 5 | 1u << 6 | 1u << 7,
};
static unsigned given[4];

static uint32_t told(enum call call, uint32_t code)
{
    uint32_t most = call == DELETE ? 0 : call == LIST ? 64 : 2048;
    if (code < STORE_ACCEPTED) {
        CHECK(code < 32 && (may[call] & 1u << code) != 0);
        given[call] |= code < 32 ? 1u << code : 0;
    } else {
        CHECK(code - STORE_ACCEPTED <= most);
    }
    CHECK(guarded(&volume));
    return code;
}

/* Each call by itself, for on_stack: its arguments are above and here. */
static struct { uint32_t size, code; uint64_t seed; } now;
size_t deepest[4];

static void mount_now(void)
{
    now.code = store_mount(at(&volume), volume.length, medium.left, medium.unreadable, medium.entropy);
}

static void format_now(void)
{
    now.code = store_format(at(&volume), volume.length, medium.left, medium.unreadable, medium.entropy, now.size, now.seed);
}

static void delete_now(void)
{
    now.code = store_delete(at(&volume), volume.length, medium.left, medium.unreadable, medium.entropy, at(&name), name.length);
}

static void list_now(void)
{
    now.code = store_list(at(&volume), volume.length, medium.left, medium.unreadable, medium.entropy, at(&name), name.length,
                          at(&rows), rows.length);
}

static uint32_t answer_of(enum call call)
{
    static void (*const calls[])(void) = {mount_now, format_now, delete_now, list_now};
    size_t used = on_stack(calls[call]);
    CHECK(used <= STACK);
    if (used > deepest[call])
        deepest[call] = used;
    return now.code;
}

uint32_t do_mount(void)
{
    uint32_t code;
    copy_to(&before, &volume);
    code = answer_of(MOUNT);
    CHECK(same(&before, &volume));
    return told(MOUNT, code);
}

uint32_t do_format(uint32_t size, uint64_t seed)
{
    size_t past = volume.length % STORE_SECTOR;
    uint32_t code;
    copy_to(&before, &volume);
    now.size = size;
    now.seed = seed;
    code = answer_of(FORMAT);
    /* a refusal other than 4, and no write left: not a byte changes; bytes past the last sector never do */
    if ((code < STORE_ACCEPTED && code != STORE_E_MEDIA) || medium.left == 0)
        CHECK(same(&before, &volume));
    CHECK(memcmp(at(&before) + before.length - past, at(&volume) + volume.length - past, past) == 0);
    return told(FORMAT, code);
}

uint32_t do_delete(const void *text, size_t length)
{
    uint32_t code;
    copy_to(&before, &volume);
    lend(&name, length);
    memcpy(at(&name), text, length);
    code = answer_of(DELETE);
    if ((code < STORE_ACCEPTED && code != STORE_E_MEDIA && code != STORE_E_CORRUPT) || medium.left == 0)
        CHECK(same(&before, &volume));
    CHECK(guarded(&name) && memcmp(at(&name), text, length) == 0);
    return told(DELETE, code);
}

uint32_t do_list(const void *text, size_t length, size_t rows_length)
{
    uint32_t code;
    size_t i, made;
    copy_to(&before, &volume);
    lend(&name, length);
    memcpy(at(&name), text, length);
    lend(&rows, rows_length);
    for (i = 0; i < rows_length; i++)
        at(&rows)[i] = row_byte(i);
    code = answer_of(LIST);
    CHECK(same(&before, &volume));
    CHECK(guarded(&name) && memcmp(at(&name), text, length) == 0);
    CHECK(guarded(&rows));
    /* past the rows of an accepted list, and everywhere but after 4 and 7, the bytes are as lent */
    made = code >= STORE_ACCEPTED ? STORE_ROW * (size_t)(code - STORE_ACCEPTED) : 0;
    CHECK(code == STORE_E_MEDIA || code == STORE_E_CORRUPT || rows_as_lent_from(made));
    return told(LIST, code);
}

void check_every_refusal(void)
{
    size_t c;
    part = "every refusal";
    for (c = 0; c < 4; c++) {
        if (given[c] != may[c])
            printf("%s gave %x of %x\n", call_names[c], given[c], may[c]);
        CHECK(given[c] == may[c]);
    }
}
