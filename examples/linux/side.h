/* What boot.c and calls.c, the two files that are compiled with Linux' own, know of each other. */
#ifndef SIDE_H
#define SIDE_H

#include <setjmp.h>

struct hyp_pool;
/* Where a CPU's call goes on that EL2 ends by stopping the machine, and whether this is set. */
extern _Thread_local jmp_buf side_back;
extern _Thread_local bool side_is_in_call;
struct hyp_pool *side_hyp_pool(void);

#endif
