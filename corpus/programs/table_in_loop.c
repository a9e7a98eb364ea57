const int t[4]={1,2,3,4}; int f(int n){int s=0; for(int i=0;i<4;i++) s+=t[i]+t[3-i]; return s;}
