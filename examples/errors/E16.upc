/* E16: what upc_alloc gave is freed twice (UPC 7.2.2). */
int main(void) {
  shared [] char *text = upc_alloc(4);
  upc_free(text);
  upc_free(text);
  return 0;
}
