/* A level from 0 to 9: in which tenth of the range a value is. */
unsigned char threshold(unsigned value) {
    unsigned level = value * 10 / 255;
    return level > 9 ? 9 : level;
}
