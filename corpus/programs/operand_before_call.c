int h(int x){while(x>2) x--; return x;} int f(int a,int b){return a*b+h(b);}
