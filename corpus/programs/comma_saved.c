int g(void){return 1;} int f(int a[2],int c){int x; return (a[0], x = g());}
