void f(int a[8]){for(long i=0;i<8;i++) a[i]=a[i]+1;}
