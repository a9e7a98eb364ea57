/* A traffic light: its state stays from one call to the next. 0 is red, 1 is red and yellow, 2 is green, 3 is yellow. */
static int state;
static int waited;

int traffic_light(int car_waits) {
    waited++;
    switch (state) {
    case 0:
        if (car_waits || waited >= 10) {
            state = 1;
            waited = 0;
        }
        break;
    case 1:
        state = 2;
        waited = 0;
        break;
    case 2:
        if (waited < 5)
            break;
        state = 3;
        waited = 0;
        break;
    default:
        state = 0;
        waited = 0;
    }
    return state;
}
