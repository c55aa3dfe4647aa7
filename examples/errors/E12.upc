/* E12: a barrier inside a upc_forall that shares out its turns (UPC 6.6.2). */
int main(void) {
  int i;
  upc_forall (i = 0; i < 4; i++; i)
    upc_barrier;
  return 0;
}
