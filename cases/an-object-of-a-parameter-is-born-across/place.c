u32 a; void g(u32 n){u32 *p; p=&n; *p=*p+1; a=a*10+n;} void f(void){g(4); g(6);}
