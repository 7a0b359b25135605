/* What the hypervisor sources of Linux take from the kernel's other headers, in our own words. Each
 * of those headers is a file of one line that includes this one (`compile` writes them).
 */
#ifndef SHIM_KERNEL_H
#define SHIM_KERNEL_H

#include "base.h"
#include "stop.h"
#include "memory.h"
#include "machine.h"
#include "locks.h"
#include "vm.h"

/* Calls on guests, and the states of pages in hyp_vmemmap. Releases between these two have one or
 * the other.
 */
#define LINUX_HAS_GUESTS (LINUX_VERSION_CODE >= KERNEL_VERSION(7, 0, 0))

#endif
