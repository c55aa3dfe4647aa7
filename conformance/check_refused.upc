shared [3] int a[20];
int main(void) { return b[0]; }
