int h(int x){while(x>2) x--; return x;} int g(int x,int y){return x+y;} int f(int a,int b){return g(a*b,h(b));}
