unsigned f(unsigned a,unsigned b){if(a<b) a=a+1; return a;}
