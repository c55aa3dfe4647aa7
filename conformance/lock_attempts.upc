int main(void){upc_lock_t *l=upc_global_lock_alloc();int a=upc_lock_attempt(l);int b=upc_lock_attempt(l);return a*10+b;}
