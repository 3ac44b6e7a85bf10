#pragma once
#include <stddef.h>
long read(int from, void *to, size_t n);
long write(int to, const void *from, size_t n);
