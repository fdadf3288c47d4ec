/* The toolchain's C compiler comes without headers: what utasiro.h needs. */
#ifndef STDINT_H
#define STDINT_H

typedef __UINT32_TYPE__ uint32_t;
typedef __UINT64_TYPE__ uint64_t;
#define UINT32_C(number) number##U

#endif
