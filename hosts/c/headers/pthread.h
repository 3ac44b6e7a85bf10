#pragma once
#include <stddef.h>
typedef unsigned long pthread_t;
typedef union {
    char room[56];
    long aligned;
} pthread_attr_t;
int pthread_attr_init(pthread_attr_t *attributes);
int pthread_attr_setstack(pthread_attr_t *attributes, void *lowest, size_t length);
int pthread_create(pthread_t *thread, const pthread_attr_t *attributes, void *(*start)(void *), void *argument);
int pthread_join(pthread_t thread, void **result);
