/* E20: the private objects of a thread have more than 1,048,576 bytes. */
int main(void) {
  char much[1048577];
  return 0;
}
