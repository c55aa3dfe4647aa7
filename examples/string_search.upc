/* Where a word stands in a text. The text lies in blocks of 8 characters, and each thread looks at the places that lie
   on it: a match may go on into the block of another thread, which a pointer-to-shared follows by itself (UPC 6.4.2).
   upc_threadof says where a place lies (UPC 7.2.3.1). */
#include <upc_relaxed.h>
#include <stdio.h>

#define BLOCK 8
#define LENGTH 64

shared [BLOCK] char text[LENGTH];
shared [BLOCK] int found[LENGTH];

int length_of(char *word) {
  int n = 0;
  while (word[n])
    n++;
  return n;
}

int stands_at(shared [BLOCK] char *place, char *word) {
  for (; *word; word++, place++)
    if (*place != *word)
      return 0;
  return 1;
}

int main(void) {
  char word[4] = {'a', 'n', 'a', 0};
  char line[30] = {'a', ' ', 'b', 'a', 'n', 'a', 'n', 'a', ' ', 'i', 'n', ' ', 'a', ' ', 's', 'a', 'v', 'a', 'n', 'n',
    'a', ' ', 'c', 'a', 'b', 'a', 'n', 'a', '.', 0};
  int last = LENGTH - length_of(word);
  int i;
  upc_forall (i = 0; i < LENGTH; i++; &text[i])
    text[i] = line[i % 29];
  upc_barrier;
  upc_forall (i = 0; i <= last; i++; &text[i])
    found[i] = stands_at(&text[i], word);
  upc_barrier;
  if (MYTHREAD == 0)
    for (i = 0; i <= last; i++)
      if (found[i])
        printf("%d\n", i);
  return 0;
}
