/* memcpy, memset and memcmp are declared in multos.h. */
#include <multos.h>
