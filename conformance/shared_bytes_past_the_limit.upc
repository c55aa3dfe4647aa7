shared char a[16777216];
shared char b;
int main(void) { return 0; }
