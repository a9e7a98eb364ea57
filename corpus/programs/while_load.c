int f(int a[8]){int i=0; while(a[i]) i++; return i;}
