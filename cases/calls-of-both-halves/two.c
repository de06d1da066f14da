u32 a; u32 b; __critical void reset(void){a=0; b=7;} void f(void){a=1; reset(); writel(a+b,9);}
