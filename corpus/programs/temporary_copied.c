int f(int a[8]){int s=0;for(int i=0;i<8;i++){int t=s+a[i]; s=t;} return s;}
