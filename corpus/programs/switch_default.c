int f(int n){int s=0; switch(n){case 1: s=1; case 2: s+=2; break; default: s=9;} return s;}
