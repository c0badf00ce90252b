/* uint8_t, uint16_t and uint32_t are declared in multos.h. */
#include <multos.h>
