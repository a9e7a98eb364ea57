unsigned long f(unsigned char a,unsigned long b){return a+b;}
