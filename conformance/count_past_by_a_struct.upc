#define A {int a;}
#define B A A
#define C B B
#define D C C
#define E D D
#define F E E
#define G F F
#define H G G
#define I H H
#define J I I
#define K J J
#define L K K
#define M L L
#define N M M
#define O N N
#define P O O
/* 65,534 objects and one function: the struct is one too many. */
void f(void){
P O N M L K J I H G F E D C B
}
struct t *p;
int main(void){return 0;}
