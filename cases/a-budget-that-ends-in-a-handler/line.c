u32 hits; u32 seen; void h(void){hits=hits+1; hits=hits+1;} void go(void){request_irq(h); writel(1,0); seen=1;}
