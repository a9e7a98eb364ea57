int f(_Bool a,int b){if(a) b=3; return b;}
