#include "lent.h"

void lend(struct lent *l, const uint8_t *content, size_t size, size_t length)
{
    size_t known = size < length ? size : length;
    l->start = GUARD - below(8);
    l->length = length;
    random_fill(l->bytes, l->start);
    memcpy(l->bytes + l->start, content, known);
    random_fill(l->bytes + l->start + known, length - known + GUARD);
    memcpy(l->kept, l->bytes, l->start + length + GUARD);
}

uint8_t *lent_bytes(struct lent *l)
{
    return l->bytes + l->start;
}

/* Eight bytes at a time: all of the memory is compared at most calls. */
int same(const uint8_t *a, const uint8_t *b, size_t length)
{
    for (; length >= 8; length -= 8, a += 8, b += 8) {
        uint64_t x, y;
        memcpy(&x, a, 8);
        memcpy(&y, b, 8);
        if (x != y)
            return 0;
    }
    return memcmp(a, b, length) == 0;
}

int kept_but(const struct lent *l, size_t from, size_t to)
{
    size_t behind = l->start + to;
    return same(l->bytes, l->kept, l->start + from) &&
           same(l->bytes + behind, l->kept + behind, GUARD + l->length - to);
}

int kept(const struct lent *l)
{
    return kept_but(l, 0, 0);
}

unsigned changed_in(const struct lent *l, size_t from, size_t to)
{
    unsigned changed = 0;
    for (size_t i = l->start + from; i < l->start + to; i++)
        changed += l->bytes[i] != l->kept[i];
    return changed;
}
