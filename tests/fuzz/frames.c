#include "frames.h"
#include "../check_sum.h"
#include "random.h"

static void add_word(struct frame *f, uint32_t word)
{
    f->bytes[f->length++] = (uint8_t)(word >> 8);
    f->bytes[f->length++] = (uint8_t)word;
}

static void add_random(struct frame *f, size_t count)
{
    random_fill(f->bytes + f->length, count);
    f->length += count;
}

static void finish_frame(struct frame *f)
{
    unsigned sum = check_sum(f->bytes, f->length);
    add_word(f, (sum & 0xFF) << 8 | sum >> 8);
}

/* Often low, or such that the range ends at an area's end or beside it; now and then any. */
static uint32_t random_register(uint32_t quantity)
{
    uint32_t end = one_in(2) ? 4096 : 8192;
    if (one_in(2))
        return below(24);
    return one_in(8) ? random_number() & 0xFFFF : end - quantity + below(3) - 1;
}

static uint32_t random_quantity(uint32_t most)
{
    if (one_in(2))
        return 1 + below(4);
    return one_in(16) ? random_number() & 0xFFFF : one_in(2) ? most - 1 + below(3) : below(most + 2);
}

static void add_written(struct frame *f)
{
    uint32_t quantity = random_quantity(123);
    add_word(f, random_register(quantity));
    add_word(f, quantity);
    f->bytes[f->length++] = (uint8_t)(one_in(16) ? random_number() : 2 * quantity);
    add_random(f, quantity <= 124 ? 2 * quantity : 2);
}

static void add_request(struct frame *f)
{
    uint32_t quantity = random_quantity(125);
    switch (f->bytes[1]) {
    case READ_REGISTERS:
        add_word(f, random_register(quantity));
        add_word(f, quantity);
        break;
    case WRITE_REGISTERS: add_written(f); break;
    case WRITE_REGISTER: case MASK_REGISTER:
        add_word(f, random_register(1));
        add_random(f, f->bytes[1] == WRITE_REGISTER ? 2 : 4);
        break;
    default: add_random(f, below(12));
    }
    if (one_in(16))
        f->length = 2 + below((uint32_t)f->length - 1);
    if (one_in(16))
        add_random(f, 1 + below(3));
}

struct frame random_frame(uint8_t station)
{
    static const uint8_t functions[] = {READ_REGISTERS, WRITE_REGISTER, WRITE_REGISTERS, MASK_REGISTER};
    struct frame f = {.bytes = {station}, .length = 2};
    if (one_in(16))
        f.bytes[0] = one_in(2) ? 0 : random_byte();
    f.bytes[1] = one_in(8) ? random_byte() : functions[below(sizeof functions)];
    add_request(&f);
    finish_frame(&f);
    if (one_in(16))
        f.bytes[below((uint32_t)f.length)] ^= (uint8_t)(1 << below(8));
    if (one_in(32))
        f.length = below((uint32_t)f.length);
    return f;
}
