// What these C files need of the C library; the kit's compiler comes without headers.
#ifndef BASE_H
#define BASE_H

#define bool _Bool
#define true 1
#define false 0

typedef __SIZE_TYPE__ size_t;
typedef __UINT8_TYPE__ uint8_t;
typedef __UINT64_TYPE__ uint64_t;

#define SIZE_MAX __SIZE_MAX__

void *memcpy(void *restrict to, const void *restrict from, size_t length);
void *memset(void *to, int byte, size_t length);
long read(int file, void *to, size_t length);
long write(int file, const void *from, size_t length);

#endif
