u32 a; void f(void){writel(a,4095); writel(a,4096);}
