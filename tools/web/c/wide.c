/* Arithmetic of 128 bits, which the compiler calls by these names. */
#include "shim.h"

struct pair {
    u64 low, high;
};

static struct pair product(u64 one, u64 other) {
    u64 mask = 0xffffffff, one_low = one & mask, one_high = one >> 32, other_low = other & mask, other_high = other >> 32;
    u64 low = one_low * other_low;
    u64 middle = one_high * other_low + (low >> 32);
    u64 rest = one_low * other_high + (middle & mask);
    struct pair made = {(rest << 32) + (low & mask), one_high * other_high + (middle >> 32) + (rest >> 32)};
    return made;
}

void __multi3(struct pair *out, u64 one_low, u64 one_high, u64 other_low, u64 other_high) {
    *out = product(one_low, other_low);
    out->high += one_low * other_high + one_high * other_low;
}

void __ashlti3(struct pair *out, u64 low, u64 high, i32 by) {
    by &= 127;
    struct pair small = {low << (by & 63), by ? high << (by & 63) | low >> ((64 - by) & 63) : high}, large = {0, low << (by & 63)};
    *out = by < 64 ? small : large;
}

void __lshrti3(struct pair *out, u64 low, u64 high, i32 by) {
    by &= 127;
    struct pair small = {by ? low >> (by & 63) | high << ((64 - by) & 63) : low, high >> (by & 63)}, large = {high >> (by & 63), 0};
    *out = by < 64 ? small : large;
}
