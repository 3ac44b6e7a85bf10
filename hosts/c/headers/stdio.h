#pragma once
#include <stddef.h>
int printf(const char *format, ...) __attribute__((format(printf, 1, 2)));
int dprintf(int to, const char *format, ...) __attribute__((format(printf, 2, 3)));
int snprintf(char *to, size_t n, const char *format, ...) __attribute__((format(printf, 3, 4)));
