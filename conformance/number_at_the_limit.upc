int main(void) { return 18446744073709551615u == 0; }
