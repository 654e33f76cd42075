/* Products and quotients of 128 bits, which LLVM calls for and WebAssembly lacks. No proof covers this file. */
typedef __UINT64_TYPE__ uint64_t;
typedef unsigned __int128 wide;
typedef __int128 wide_signed;

static wide pair(uint64_t low, uint64_t high) {
    return (wide) high << 64 | low;
}

wide_signed __multi3(wide_signed one, wide_signed other) {
    const uint64_t a = (uint64_t) one, b = (uint64_t) other, mask = 0xffffffff;
    const uint64_t low = (a & mask) * (b & mask), mixed = (a >> 32) * (b & mask), mixed_too = (a & mask) * (b >> 32);
    const uint64_t middle = (low >> 32) + (mixed & mask) + (mixed_too & mask);
    const uint64_t high = (a >> 32) * (b >> 32) + (mixed >> 32) + (mixed_too >> 32) + (middle >> 32);
    const uint64_t above = a * (uint64_t) ((wide) other >> 64) + b * (uint64_t) ((wide) one >> 64);
    return (wide_signed) pair(middle << 32 | (low & mask), high + above);
}

static wide divided(wide number, wide by) {
    const uint64_t digits[2] = {(uint64_t) number, (uint64_t) (number >> 64)};
    uint64_t quotient[2] = {0, 0};
    wide rest = 0;
    for (int at = 127; at >= 0; at--) {
        rest = rest << 1 | (digits[at >> 6] >> (at & 63) & 1);
        if (rest >= by) {
            rest -= by;
            quotient[at >> 6] |= (uint64_t) 1 << (at & 63);
        }
    }
    return pair(quotient[0], quotient[1]);
}

wide_signed __divti3(wide_signed number, wide_signed by) {
    const wide size = divided(number < 0 ? -(wide) number : (wide) number, by < 0 ? -(wide) by : (wide) by);
    return (wide_signed) ((number < 0) != (by < 0) ? -size : size);
}
