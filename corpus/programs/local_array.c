int f(int i){int t[4]={1,2,3}; return t[i];}
