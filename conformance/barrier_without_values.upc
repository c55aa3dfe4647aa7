int main(void) {
  upc_notify;
  upc_wait;
  return 0;
}
