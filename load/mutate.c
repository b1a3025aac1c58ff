#include "mutate.h"

#include "radius.h"

struct change {
    struct random *random;
    uint8_t *octets;
    size_t length;
    size_t room;
};

static size_t below(struct change *change, size_t limit)
{
    return (size_t)random_below(change->random, limit);
}

/* The place of an attribute, as far as the lengths lead; 0 where there is none. */
static size_t some_attribute(struct change *change)
{
    size_t at = HEADER_SIZE, steps = below(change, 8);

    for (; steps > 0 && at + 1 < change->length && change->octets[at + 1] >= 2; steps--)
        at += change->octets[at + 1];
    return at + 1 < change->length ? at : 0;
}

static void flip_bits(struct change *change)
{
    for (size_t count = 1 + below(change, 8); count > 0 && change->length > 0; count--) {
        size_t bit = below(change, 8 * change->length);
        change->octets[bit / 8] ^= (uint8_t)(1 << bit % 8);
    }
}

static void cut(struct change *change)
{
    change->length = below(change, change->length + 1);
}

static void extend(struct change *change)
{
    static const size_t limits[] = {64, 64, 64, 64, 64, 64, 4096, LARGEST_DATAGRAM};
    size_t more = 1 + below(change, limits[below(change, sizeof limits / sizeof *limits)]);

    if (more > change->room - change->length)
        more = change->room - change->length;
    random_fill(change->random, change->octets + change->length, more);
    change->length += more;
}

static void change_header_length(struct change *change)
{
    size_t length = below(change, 2) == 0 ? below(change, 1 << 16)
                                          : change->length + below(change, 9) - 4;

    if (change->length < HEADER_SIZE)
        return;
    change->octets[2] = (uint8_t)(length >> 8);
    change->octets[3] = (uint8_t)length;
}

static void change_attribute_length(struct change *change)
{
    size_t at = some_attribute(change);

    if (at > 0)
        change->octets[at + 1] = (uint8_t)below(change, below(change, 2) == 0 ? 4 : 256);
}

static void change_attribute_type(struct change *change)
{
    static const uint8_t types[] = {1, 2, 3, 24, 26, 33, 40, 44, 60, 69, 79, 80, 101};
    size_t at = some_attribute(change);

    if (at > 0)
        change->octets[at] = types[below(change, sizeof types)];
}

static void repeat_attribute(struct change *change)
{
    size_t at = some_attribute(change), size = at > 0 ? change->octets[at + 1] : 0;

    if (size < 2 || at + size > change->length || size > change->room - change->length)
        return;
    memcpy(change->octets + change->length, change->octets + at, size);
    change->length += size;
    if (change->length <= LARGEST_PACKET && below(change, 4) > 0) {
        change->octets[2] = (uint8_t)(change->length >> 8);
        change->octets[3] = (uint8_t)change->length;
    }
}

static void change_code(struct change *change)
{
    static const uint8_t codes[] = {0, 1, 2, 3, 4, 5, 11, 12, 40, 41, 42, 43, 44, 45, 255};

    if (change->length > 0)
        change->octets[0] = codes[below(change, sizeof codes)];
}

static void fill(struct change *change)
{
    random_fill(change->random, change->octets, change->length);
}

static void apply(struct change *change)
{
    static void (*const changes[])(struct change *) = {
        flip_bits, flip_bits, flip_bits, cut, extend, change_header_length,
        change_attribute_length, change_attribute_length, change_attribute_type,
        change_attribute_type, repeat_attribute, repeat_attribute, change_code, fill};

    changes[below(change, sizeof changes / sizeof *changes)](change);
}

size_t mutate(struct random *random, uint8_t *octets, size_t length, size_t room)
{
    struct change change = {random, octets, length, room};

    for (uint64_t count = 1 + random_below(random, 3); count > 0; count--)
        apply(&change);
    return change.length;
}
