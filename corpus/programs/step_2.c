void f(int a[8]){for(int i=0;i<7;i+=2) a[i]=a[i+1]+1;}
