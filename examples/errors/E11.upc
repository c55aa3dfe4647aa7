/* E11: the value at a wait differs from the value at a notify of its phase (UPC 6.6.1): each thread gives its own. */
int main(void) {
  upc_barrier MYTHREAD;
  return 0;
}
