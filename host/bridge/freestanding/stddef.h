/* The toolchain's C compiler comes without headers: what utasiro.h needs. */
#ifndef STDDEF_H
#define STDDEF_H

typedef __SIZE_TYPE__ size_t;

#endif
