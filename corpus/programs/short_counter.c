void f(int a[8]){for(short i=0;i<8;i++) a[i]=a[i]+1;}
