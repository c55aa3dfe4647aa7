int main(void){int i;return 0;}
