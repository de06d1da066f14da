u32 hits; u32 seen; void h(void){hits=seen; writel(0,1);} __critical void raise(void){writel(1,0); seen=1;} void go(void){request_irq(h); seen=5; raise(); seen=seen+1;}
