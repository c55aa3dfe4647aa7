int main(void){upc_lock_t *l=upc_all_lock_alloc();upc_unlock(l);return 0;}
