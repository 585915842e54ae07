// The functions that LLVM calls for products and shifts of 128 bits. A native program has them from the library of its compiler. No function
// here may multiply, shift or divide 128 bits, because LLVM would call the function itself.
typedef unsigned long long u64;
typedef unsigned __int128 u128;
typedef __int128 i128;

typedef union {
    u128 whole;
    struct {
        u64 low, high;
    };
} Halves;

#define LOW_32 0xffffffffULL

u128 __multi3(u128 x, u128 y) {
    Halves a = {x}, b = {y}, product;
    u64 a_low = a.low & LOW_32, a_high = a.low >> 32, b_low = b.low & LOW_32, b_high = b.low >> 32;
    u64 low = a_low * b_low, middle = a_high * b_low + (low >> 32), other_middle = a_low * b_high + (middle & LOW_32);
    product.low = other_middle << 32 | (low & LOW_32);
    product.high = a_high * b_high + (middle >> 32) + (other_middle >> 32) + a.low * b.high + a.high * b.low;
    return product.whole;
}

u128 __ashlti3(u128 number, int bits) {
    Halves from = {number}, to;
    if (bits & 64) {
        to.low = 0;
        to.high = from.low << (bits & 63);
    } else {
        to.low = from.low << (bits & 63);
        to.high = from.high << (bits & 63) | from.low >> 1 >> (63 - (bits & 63));
    }
    return to.whole;
}

u128 __lshrti3(u128 number, int bits) {
    Halves from = {number}, to;
    if (bits & 64) {
        to.low = from.high >> (bits & 63);
        to.high = 0;
    } else {
        to.low = from.low >> (bits & 63) | from.high << 1 << (63 - (bits & 63));
        to.high = from.high >> (bits & 63);
    }
    return to.whole;
}

i128 __ashrti3(i128 number, int bits) {
    Halves from = {(u128)number}, to;
    long long high = (long long)from.high;
    if (bits & 64) {
        to.low = (u64)(high >> (bits & 63));
        to.high = (u64)(high >> 63);
    } else {
        to.low = from.low >> (bits & 63) | from.high << 1 << (63 - (bits & 63));
        to.high = (u64)(high >> (bits & 63));
    }
    return (i128)to.whole;
}
