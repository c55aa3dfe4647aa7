int main(void){shared [] char *p=upc_alloc(4);upc_free(p);upc_free(p);return 0;}
