/* See stddef.h. */
#pragma once
#include <stddef.h>
size_t strlen(const char *s);
int strcmp(const char *one, const char *other);
int memcmp(const void *one, const void *other, size_t length);
void *memcpy(void *to, const void *from, size_t length);
void *memmove(void *to, const void *from, size_t length);
void *memset(void *at, int octet, size_t length);
