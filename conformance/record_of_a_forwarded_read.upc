shared int x; shared int y; int main(void){x = 1; x = y + x; return 0;}
