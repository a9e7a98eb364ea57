/* The greatest common divisor, by subtraction. */
unsigned gcd(unsigned a, unsigned b) {
    while (a != b) {
        if (a > b)
            a = a - b;
        else
            b = b - a;
    }
    return a;
}
