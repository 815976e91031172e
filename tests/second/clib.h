/* The few functions of the C library that the second program calls, declared by hand: the kit has
 * the library and no headers. */
#ifndef SECOND_CLIB_H
#define SECOND_CLIB_H

#include <stddef.h>
#include <stdint.h>

int printf(const char *format, ...);
void *memcpy(void *to, const void *from, size_t len);
void *memset(void *to, int byte, size_t len);
int memcmp(const void *a, const void *b, size_t len);
int strcmp(const char *a, const char *b);
unsigned long strtoul(const char *text, char **end, int base);
long write(int file, const void *bytes, size_t len);
_Noreturn void exit(int status);

#endif
