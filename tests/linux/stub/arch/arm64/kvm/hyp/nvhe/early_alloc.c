/* Nothing is allocated before the pools are there. */
#include <nvhe/stub.h>

s64 hyp_physvirt_offset;
