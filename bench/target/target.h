/* What a program on an emulated board has in place of a C library. */
#ifndef TARGET_H
#define TARGET_H

#include <stdint.h>

/* Prints a text, by the emulator. */
void put(const char *text);

/* Prints a number in decimal. */
void put_number(int64_t value);

#endif
