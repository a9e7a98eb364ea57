int f(int a[4],unsigned char i){return a[i];}
