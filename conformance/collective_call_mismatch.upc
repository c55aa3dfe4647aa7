int main(void){shared int *p=upc_all_alloc(MYTHREAD+1,4);return 0;}
