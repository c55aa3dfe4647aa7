/* Customers at tills. Each till has a queue of its own, a ring in private memory, and is simulated by one thread,
   minute by minute; what came of it goes into a shared array of structs (C99 6.7.2.1, UPC 6.6.2). How many threads
   there are changes who does the work, and nothing of the answer. */
#include <upc_relaxed.h>
#include <stdio.h>

#define TILLS 6
#define MINUTES 60
#define ROOM 8

struct customer {
  int came;
  int needs;
};

struct queue {
  struct customer line[ROOM];
  int first;
  int waiting;
};

struct result {
  int served;
  int turned_away;
  int longest_wait;
};

shared struct result results[TILLS];

int join(struct queue *q, int minute, int needs) {
  struct customer *last;
  if (q->waiting == ROOM)
    return 0;
  last = &q->line[(q->first + q->waiting) % ROOM];
  last->came = minute;
  last->needs = needs;
  q->waiting++;
  return 1;
}

/* A minute of work for the first in the line; the minutes that this one has waited, if it is served now, else -1. */
int serve(struct queue *q, int minute) {
  struct customer *first = &q->line[q->first];
  if (q->waiting == 0 || --first->needs > 0)
    return -1;
  q->first = (q->first + 1) % ROOM;
  q->waiting--;
  return minute - first->came;
}

void simulate(int till) {
  struct queue q;
  int minute;
  int wait;
  q.first = 0;
  q.waiting = 0;
  for (minute = 0; minute < MINUTES; minute++) {
    if ((minute * (till + 2)) % 7 < 3 && !join(&q, minute, 1 + (minute + till) % 4))
      results[till].turned_away++;
    wait = serve(&q, minute);
    if (wait >= 0) {
      results[till].served++;
      if (wait > results[till].longest_wait)
        results[till].longest_wait = wait;
    }
  }
}

int main(void) {
  int till;
  upc_forall (till = 0; till < TILLS; till++; &results[till])
    simulate(till);
  upc_barrier;
  if (MYTHREAD == 0)
    for (till = 0; till < TILLS; till++)
      printf("till %d: served %d, turned away %d, longest wait %d\n", till, results[till].served,
        results[till].turned_away, results[till].longest_wait);
  return 0;
}
