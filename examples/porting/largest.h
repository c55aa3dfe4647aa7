/* What largest.upc shares with other programs: headers of one's own go through bin/pre. */
#include <upc_strict.h>
#include <stdio.h>

#define PER_THREAD 3
#define LARGER(a, b) ((a) > (b) ? (a) : (b))

int owner_of(int index) {
  return index % THREADS;
}
