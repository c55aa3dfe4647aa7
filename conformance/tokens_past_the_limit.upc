#define A ;
#define B A A
#define C B B
#define D C C
#define E D D
#define F E E
#define G F F
#define H G G
#define I H H
#define J I I
#define K J J
#define L K K
#define M L L
#define N M M
#define O N N
#define P O O
#define Q P P
#define R Q Q
#define S R R
#define T S S
int main(void) {
A B C E F G H I J K L M N O P Q R S T
return 0; }
