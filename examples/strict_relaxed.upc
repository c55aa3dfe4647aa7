/* Three ways to hand a value over. Thread 0 writes it and then says so; the last thread waits until it is said, and
   reads it. What is relaxed alone may be seen in any order; a strict access stands after all that its thread did
   before, and before all that it does after (UPC 6.5.1.1): by a strict variable, by the pragma at the head of a block
   (UPC 6.7), or by a fence between two relaxed accesses (UPC 6.6.1). It prints 42 three times, on any number of
   threads. */
#include <upc_relaxed.h>
#include <stdio.h>

shared int value[3];
strict shared int said;
shared int said_in_block;
shared int said_after_fence;

int told_in_block(void) {
#pragma upc strict
  return said_in_block;
}

void tell(void) {
  value[0] = 42;
  said = 1;
  value[1] = 42;
  {
#pragma upc strict
    said_in_block = 1;
  }
  value[2] = 42;
  upc_fence;
  said_after_fence = 1;
}

void hear(void) {
  while (!said)
    ;
  printf("%d\n", value[0]);
  while (!told_in_block())
    ;
  printf("%d\n", value[1]);
  do
    upc_fence;
  while (!said_after_fence);
  upc_fence;
  printf("%d\n", value[2]);
}

int main(void) {
  if (MYTHREAD == 0)
    tell();
  if (MYTHREAD == THREADS - 1)
    hear();
  return 0;
}
