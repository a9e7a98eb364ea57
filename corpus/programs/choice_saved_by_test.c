int g(void){return 1;} int f(int a[2],int c,int d){return (a[0] ? a[1] : d) + g();}
