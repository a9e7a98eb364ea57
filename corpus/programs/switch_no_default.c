int f(int n){int s=0; switch(n){case 1: s=1; break;} return s;}
