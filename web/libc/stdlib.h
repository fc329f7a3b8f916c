/* Of the C library what lib/texts.c calls; ../system.c has it. */
#pragma once
#include <stddef.h>
void *malloc(size_t size);
void *realloc(void *old, size_t size);
void free(void *at);
