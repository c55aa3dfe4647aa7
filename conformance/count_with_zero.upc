int main(void) { return THREADS; }
