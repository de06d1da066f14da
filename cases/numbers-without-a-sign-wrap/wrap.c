u32 a; void f(void){a=2147483647; a=a+a+1; a=a+a; writel(a,1);}
