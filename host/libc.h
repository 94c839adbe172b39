/* What the programs here take from the C library: the kit has the library but no headers of it. */
#ifndef DESK_LIBC_H
#define DESK_LIBC_H
#include <stddef.h>

typedef struct desk_file FILE;
FILE *fopen(const char *path, const char *mode);
size_t fread(void *to, size_t size, size_t count, FILE *f);
int fclose(FILE *f);
int fprintf(FILE *f, const char *form, ...);
int printf(const char *form, ...);
int memcmp(const void *a, const void *b, size_t n);
void *memcpy(void *to, const void *from, size_t n);
void *memset(void *to, int byte, size_t n);
size_t strlen(const char *text);
_Noreturn void exit(int status);

#endif
