int f(int n){int s=0,i=0; while(i<n){ i++; if(i&1) continue; s+=i;} return s;}
