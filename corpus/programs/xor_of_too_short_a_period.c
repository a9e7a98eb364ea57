unsigned f(unsigned a,unsigned b,unsigned c){return a^b^c;}
