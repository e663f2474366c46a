/* What <stddef.h> says of sizes, for the toolchain's compiler, which comes without headers. */
#ifndef TOOLS_STDDEF_H
#define TOOLS_STDDEF_H

typedef __SIZE_TYPE__ size_t;
#define NULL ((void *)0)

#endif
