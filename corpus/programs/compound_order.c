void f(int a[8],int i,int j){a[i]+=a[j]*3;}
