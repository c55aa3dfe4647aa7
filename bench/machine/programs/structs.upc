/* Structs in an array: N trees, each by 100 insertions. */
#include <stdio.h>

struct node {
  int key;
  int left;
  int right;
};
struct node t[128];
int count;

void insert(int key) {
  int at = 0;
  if (count == 0) {
    t[0].key = key;
    t[0].left = -1;
    t[0].right = -1;
    count = 1;
    return;
  }
  while (1) {
    if (key == t[at].key)
      return;
    if (key < t[at].key) {
      if (t[at].left < 0) {
        t[at].left = count;
        break;
      }
      at = t[at].left;
    } else {
      if (t[at].right < 0) {
        t[at].right = count;
        break;
      }
      at = t[at].right;
    }
  }
  t[count].key = key;
  t[count].left = -1;
  t[count].right = -1;
  count++;
}

int main(void) {
  int i;
  int n;
  int s = 0;
  for (n = 0; n < N; n++) {
    count = 0;
    for (i = 0; i < 100; i++)
      insert((i * 37 + n) % 100);
    s = (s + count) % 1000;
  }
  printf("%d\n", s);
  return 0;
}
