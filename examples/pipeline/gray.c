/* The brightness of a pixel, which has 8 bits each of red, green and blue. */
unsigned gray(unsigned pixel) {
    unsigned red = pixel >> 16 & 255, green = pixel >> 8 & 255, blue = pixel & 255;
    return (red * 77 + green * 150 + blue * 29) >> 8;
}
