#pragma once
#define RTLD_NOW 2
void *dlopen(const char *file, int flags);
void *dlsym(void *library, const char *name);
char *dlerror(void);
