int main(void) {
  if (MYTHREAD == 0) upc_notify 1; else upc_notify 2;
  upc_wait 1;
  return 0;
}
