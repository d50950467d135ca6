/* Drops an answer unless USED is defined: a compiler that can warn of it does. */
#include "pairing.h"

int main(void)
{
    uint32_t out;
#ifdef USED
    return (int)pairing_stretch(32, 1, &out, 1);
#else
    pairing_stretch(32, 1, &out, 1);
    return 0;
#endif
}
