/* A low-pass filter: the mean of this value and of the one given before, weighted 1 to 3. */
static unsigned before;

unsigned smooth(unsigned value) {
    before = (before * 3 + value + 2) >> 2;
    return before;
}
