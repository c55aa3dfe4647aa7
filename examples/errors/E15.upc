/* E15: a lock is locked that is freed (UPC 7.2.4). */
int main(void) {
  upc_lock_t *lock = upc_global_lock_alloc();
  upc_lock_free(lock);
  upc_lock(lock);
  return 0;
}
