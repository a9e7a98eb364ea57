int f(char a,int b){if(a) b=3; return b;}
