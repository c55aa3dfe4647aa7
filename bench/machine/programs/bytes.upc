/* Arrays of char: N times a text of 255 characters is copied, and a number is made of the copy. */
#include <stdio.h>

char s[256];
char d[256];

int main(void) {
  int i;
  int n;
  unsigned int h = 0;
  for (i = 0; i < 255; i++)
    s[i] = 'a' + i % 26;
  s[255] = 0;
  for (n = 0; n < N; n++) {
    i = 0;
    while (s[i]) {
      d[i] = s[i];
      i++;
    }
    d[i] = 0;
    for (i = 0; d[i]; i++)
      h = h * 31u + d[i];
  }
  printf("%u\n", h);
  return 0;
}
