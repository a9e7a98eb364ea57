int f(int n){return n; for(int i=0;i<n;i++) n--;}
