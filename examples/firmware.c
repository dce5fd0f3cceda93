/* The whole firmware as one unit, so that one listing has all of it, and its image is what the flash holds. */
#include "vectors.c"

#include "fixed.c"
#include "main.c"
#include "states.c"
#include "text.c"
#include "uart.c"
