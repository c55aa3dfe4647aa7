#define A A+1
int main(void){return A;}
