int f(int a[8],int i){a[i+1]=7; int x=a[i]; i++; return x+i;}
