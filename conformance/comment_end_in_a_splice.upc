int main(void) {
  /* one *\
/ return 1; /* two */
  return 0;
}
