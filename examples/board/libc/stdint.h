/* For a compiler that comes without its headers, as the kit's does: what this program, the library's header and tests/digest.c want. */
#ifndef STDINT_H
#define STDINT_H
typedef __UINT8_TYPE__ uint8_t;
typedef __UINT32_TYPE__ uint32_t;
typedef __UINT64_TYPE__ uint64_t;
typedef __UINTPTR_TYPE__ uintptr_t;
#define UINT64_MAX __UINT64_MAX__
#endif
