void f(int a[8]){for(int i=0;i<8;i++){ if(a[i]>2) a[i]=0; } }
