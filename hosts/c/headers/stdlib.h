#pragma once
#include <stddef.h>
void *malloc(size_t n);
void *calloc(size_t count, size_t n);
void free(void *p);
void exit(int status) __attribute__((noreturn));
unsigned long strtoul(const char *text, char **end, int base);
