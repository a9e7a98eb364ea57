int g(int x){if(x>3) return 3; return x;} int f(int a[8]){int s=0;for(int i=0;i<8;i++) s=s+g(a[i]); return s;}
