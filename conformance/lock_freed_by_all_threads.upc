int main(void){upc_lock_t *l=upc_all_lock_alloc();upc_lock(l);upc_unlock(l);upc_all_lock_free(l);return 0;}
