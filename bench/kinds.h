/* The kinds of frames and transfers that are timed and counted, each on a factory-fresh board of 231 pages. */
#ifndef KINDS_H
#define KINDS_H

#include "tags.h"

struct kind {
    const char *name;
    void (*run)(struct tag *);
    unsigned times; /* in one round */
    struct frame frame;
    uint8_t state;
    void (*set_up)(struct tag *); /* what is changed on the fresh board, or 0 */
};

enum { KINDS = 19 };

/* Fills the list. */
void list_kinds(struct kind kinds[KINDS]);

/* A fresh board before a call of this kind. */
void prepare(const struct kind *kind, struct tag *t);

#endif
