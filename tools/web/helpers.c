/* What LLVM calls for a product of 128 bits, as in the toolchain's own helpers. */
typedef unsigned long long u64;
typedef unsigned __int128 u128;
typedef union {
    u128 whole;
    struct {
        u64 low, high;
    };
} Halves;

#define LOW(value) ((value) & 0xffffffff)

u128 __multi3(u128 x, u128 y) {
    Halves a = {x}, b = {y}, product;
    u64 first = LOW(a.low) * LOW(b.low);
    u64 second = (a.low >> 32) * LOW(b.low) + (first >> 32);
    u64 third = LOW(a.low) * (b.low >> 32) + LOW(second);
    product.low = third << 32 | LOW(first);
    product.high = (a.low >> 32) * (b.low >> 32) + (second >> 32) + (third >> 32) + a.low * b.high + a.high * b.low;
    return product.whole;
}
