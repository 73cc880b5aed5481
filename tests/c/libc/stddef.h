/* What the C sources here use of the standard headers, for the kit's compiler, which brings none. */
#ifndef STDDEF_H
#define STDDEF_H
typedef unsigned long size_t;
#define NULL ((void *)0)
#define offsetof(type, field) __builtin_offsetof(type, field)
#endif
