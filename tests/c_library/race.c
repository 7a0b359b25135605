// Two threads that hand one `out` to pkvm_decode: a race of their own, which ThreadSanitizer must
// see inside the library.
#include "pkvm_oracle.h"
#include <pthread.h>

static struct pkvm_word out;

static void *decodes(void *unused)
{
	for (int i = 0; i < 1000; i++)
		pkvm_decode(3, 0x00800000400007ff, &out);
	return unused;
}

int main(void)
{
	pthread_t other;

	if (pthread_create(&other, NULL, decodes, NULL))
		return 9;
	decodes(NULL);
	return pthread_join(other, NULL) ? 9 : 0;
}
