#include <stddef.h>
#define memcpy __builtin_memcpy
#define memset __builtin_memset
void *memchr(const void *from, int byte, size_t len);
