int g(int x,int y){return x+y;} int f(int a[8]){int s=0;for(int i=0;i<8;i++) s=g(s,a[i]); return s;}
