int g(int x){return x>2;} int f(int a,int b){return a&&g(b);}
