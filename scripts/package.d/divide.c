/* A division of 128 bits, which the times of a recording take: no C library has one, and a compiler's own library may be missing. */
typedef unsigned __int128 wide;

wide __udivti3(wide dividend, wide divisor);

wide __udivti3(wide dividend, wide divisor)
{
    wide quotient = 0, rest = 0;
    for (int bit = 127; bit >= 0; bit--) {
        const wide is_over = rest >> 127;
        rest = rest << 1 | (dividend >> bit & 1);
        if (is_over || rest >= divisor) {
            rest -= divisor;
            quotient |= (wide)1 << bit;
        }
    }
    return quotient;
}
