/* What the tests use of the C library, declared by hand: the toolchain's compiler comes without headers. The numbers are those
   of Linux, alike on x86-64 and on Arm. */
#ifndef HOST_H
#define HOST_H

#include <stddef.h>
#include <stdint.h>

int printf(const char *format, ...);
int getchar(void);
void exit(int status);
unsigned long strtoul(const char *text, char **end, int base);
unsigned long long strtoull(const char *text, char **end, int base);
int strcmp(const char *a, const char *b);
size_t strlen(const char *text);
void *memcpy(void *to, const void *from, size_t count);
void *memmove(void *to, const void *from, size_t count);
void *memset(void *to, int byte, size_t count);
int memcmp(const void *a, const void *b, size_t count);

int memfd_create(const char *name, unsigned flags);
int ftruncate(int file, long length);
void *mmap(void *at, size_t length, int access, int flags, int file, long from);
enum { PROT_NONE = 0, PROT_READ = 1, PROT_WRITE = 2, MAP_SHARED = 1, MAP_PRIVATE = 2, MAP_FIXED = 16, MAP_ANONYMOUS = 32 };
#define MAP_FAILED ((void *)-1)

typedef void (*signal_handler)(int);
signal_handler signal(int number, signal_handler handler);
enum { SIGBUS = 7, SIGSEGV = 11 };

#endif
