/* The calls of include/store.h from C, each with its lent arrays between guard bytes. What a
 * call must not change is compared after it. */
#ifndef CALLS_H
#define CALLS_H

#include "store.h"

/* ---- checks: how many, and how many failed; `part` says where in the run */

extern long checks, failures;
extern const char *part;
void check(int holds, const char *what, const char *file, int line);
#define CHECK(x) check((x), #x, __FILE__, __LINE__)

/* ---- lent bytes */

struct lent {
    uint8_t *block;
    size_t length;
};

uint8_t *at(const struct lent *l);
void lend(struct lent *l, size_t length); /* zeros */
void copy_to(struct lent *to, const struct lent *from);
int same(const struct lent *a, const struct lent *b);

/* `before` is the volume as the last call found it. */
extern struct lent volume, before, rows;

int rows_as_lent_from(size_t i);

/* ---- the calls, on `volume` and with these numbers */

struct medium {
    uint32_t left;
    uint64_t unreadable;
    uint64_t entropy;
};
extern struct medium medium;

void all_allowed(void);

uint32_t do_mount(void);
uint32_t do_format(uint32_t size, uint64_t seed);
uint32_t do_delete(const void *text, size_t length);
uint32_t do_list(const void *text, size_t length, size_t rows_length);

/* Each call gave every refusal that it can give. */
void check_every_refusal(void);

/* The most stack that each call used, of those made: mount, format, delete, list. */
extern size_t deepest[4];

/* stack.c: makes the call, and how many bytes of stack it used. */
size_t on_stack(void (*call)(void));

/* ---- the two halves of the run */

void rules(void);                 /* rules.c: written from documents 01 and 02 */
long recorded(const char *path); /* recorded.c: what the Rust answered; how many calls */

#endif
