/* What the kit links into a program for x86-64, for another machine: the number that the C library's last failed call left. */
#include <errno.h>

int rattle_errno(void);

int rattle_errno(void) { return errno; }
