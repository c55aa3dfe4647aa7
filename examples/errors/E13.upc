/* E13: a lock is locked by the thread that holds it (UPC 7.2.4). */
int main(void) {
  upc_lock_t *lock = upc_all_lock_alloc();
  upc_lock(lock);
  upc_lock(lock);
  return 0;
}
