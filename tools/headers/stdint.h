/* What <stdint.h> says of the types that are used here, for the toolchain's compiler, which comes without headers. */
#ifndef TOOLS_STDINT_H
#define TOOLS_STDINT_H

typedef __UINT8_TYPE__ uint8_t;
typedef __UINT32_TYPE__ uint32_t;
typedef __UINT64_TYPE__ uint64_t;

#endif
