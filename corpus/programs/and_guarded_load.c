int f(int a[4],int i){return i<4&&a[i];}
