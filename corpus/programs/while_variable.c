int f(int n){_Bool go=1; int i=0; while(go){i++; go=i<n;} return i;}
