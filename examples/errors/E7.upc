/* E7: on thread 0 a cast to a private pointer of what lies on thread 1 (UPC 6.4.3). */
shared int value[2];
int main(void) {
  int *mine = (int *)&value[1];
  return 0;
}
