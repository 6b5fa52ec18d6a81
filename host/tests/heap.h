/* A heap that counts, and refuses what it is told to. */
#ifndef HEAP_H
#define HEAP_H

#include <stdbool.h>

/* How often memory was asked for; the number of the call, from 0, that is refused, or -1; whether those behind it are refused too; and how
   many blocks are taken and not given back. */
extern long heap_asked, heap_refused_at, heap_live;
extern bool heap_refuses_on;

#endif
