/* E17: the threads call upc_all_alloc with other arguments (UPC 7.2.2): each asks for a size of its own. */
int main(void) {
  shared int *row = upc_all_alloc(MYTHREAD + 1, 4);
  return 0;
}
