/* E18: after one member of a struct a pointer reaches no cell of its type: here padding. */
struct pair {
  char small;
  long wide;
} pair;
int main(void) {
  return (&pair.small)[1];
}
