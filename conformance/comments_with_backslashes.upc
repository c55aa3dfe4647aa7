/*************\
 * A box, \  *
\*************/
// a \ and ??/ before the end
int main(void) { return 0; }
