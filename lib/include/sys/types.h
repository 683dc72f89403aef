/* Types of POSIX. */
#ifndef _SYS_TYPES_H
#define _SYS_TYPES_H

#include <stddef.h>

typedef int ssize_t;
typedef long off_t, time_t, clock_t;
typedef int pid_t;
typedef unsigned int uid_t, gid_t, mode_t, dev_t, ino_t;

#endif
