shared int x; int main(void){x = MYTHREAD; return 0;}
