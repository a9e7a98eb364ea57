int f(int a[8]){int s=0;for(int i=0;i<8;i++){ if(a[i]>2){ if(a[i]<9) s=s+a[i]; else s=s-1; } } return s;}
