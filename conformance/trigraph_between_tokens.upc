int a??(4??);
int main(void) { return 0; }
