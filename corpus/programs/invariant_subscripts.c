void f(int a[8],int k){for(int i=0;i<7;i++) a[k]=a[k+1]+1;}
