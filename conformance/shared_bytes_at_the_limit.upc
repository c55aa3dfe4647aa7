shared char a[16777216];
int main(void) { return 0; }
