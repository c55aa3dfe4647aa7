int main(void){shared [] char *p=upc_alloc(16777216);p=upc_alloc(1);return 0;}
