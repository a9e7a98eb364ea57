int f(int n){int t=0; for(int i=0;i<n;i++) t=5; return t;}
