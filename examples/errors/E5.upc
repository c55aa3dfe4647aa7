/* E5: an access outside a shared object. */
shared int value[4];
int main(void) {
  return value[4];
}
