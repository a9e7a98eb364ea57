int f(int n){while(0) n++; return n;}
