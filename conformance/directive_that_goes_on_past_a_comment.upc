#define X 1 /* one
  more */ + 1
int main(void) { return X; }
