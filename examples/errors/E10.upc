/* E10: a wait without its notify (UPC 6.6.1). */
int main(void) {
  upc_wait;
  return 0;
}
