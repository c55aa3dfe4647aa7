/* E14: a lock is unlocked that the thread does not hold (UPC 7.2.4). */
int main(void) {
  upc_lock_t *lock = upc_all_lock_alloc();
  upc_unlock(lock);
  return 0;
}
