int f(int n,int a){int i=0; while(i<n&&(1&&6/3)+(0&&8/4)) i=i+a; return i;}
