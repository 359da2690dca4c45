/* What lwIP asks of a compiler. */
#include <stdio.h>
#include <stdlib.h>
#define BYTE_ORDER LITTLE_ENDIAN
#define LWIP_NO_UNISTD_H 1
#define SSIZE_MAX INT_MAX
#define LWIP_RAND() ((u32_t)rand())
#define LWIP_PLATFORM_DIAG(x) printf x
#define LWIP_PLATFORM_ASSERT(x) do { printf("%s\n", x); abort(); } while (0)
typedef int ssize_t;
