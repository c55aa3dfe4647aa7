int main(void){if(MYTHREAD==0)upc_global_exit(7);upc_barrier;return 0;}
