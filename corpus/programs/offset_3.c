void f(int a[16]){for(int i=0;i<13;i++) a[i+3]=a[i]+1;}
