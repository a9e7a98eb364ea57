int f(int a[4]){int s=0; for(int i=0;i<4;i++) s=s+a[i]/3; return s;}
