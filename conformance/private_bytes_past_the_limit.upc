char a[1048576];
char b;
int main(void) { return 0; }
