int g(void){return 1;} int f(int a[2]){return (a[0] && a[1]) + g();}
