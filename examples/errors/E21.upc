/* E21: all shared objects ever made have more than 16,777,216 bytes (UPC 7.2.2). */
int main(void) {
  shared [] char *text = upc_alloc(16777216);
  text = upc_alloc(1);
  return 0;
}
