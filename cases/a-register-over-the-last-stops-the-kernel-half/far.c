u32 a; __critical void low(void){writel(a,4096); a=1;} void f(void){low();}
