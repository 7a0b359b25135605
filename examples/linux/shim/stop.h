/* A BUG or a WARN at EL2 stops the machine. Here it ends the call, and the harness tells where. */
#ifndef SHIM_STOP_H
#define SHIM_STOP_H

void shim_stop(const char *file, int line, const char *what) __noreturn;
extern _Thread_local char shim_where[96]; /* where the last stop was */

#define BUG() shim_stop(__FILE__, __LINE__, "BUG")
#define BUG_ON(x)                                                                                  \
	do {                                                                                       \
		if (x)                                                                             \
			shim_stop(__FILE__, __LINE__, "BUG_ON");                                   \
	} while (0)
#define WARN_ON(x)                                                                                 \
	({                                                                                         \
		if (x)                                                                             \
			shim_stop(__FILE__, __LINE__, "WARN_ON");                                  \
		0;                                                                                 \
	})
#define WARN_ON_ONCE(x) WARN_ON(x)

#endif
