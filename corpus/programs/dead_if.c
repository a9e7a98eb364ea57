int f(int n){for(;;){ break; if(n) n=1; } return n;}
