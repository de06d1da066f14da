u32 hits; u32 seen; combolock_t l; void h(void){hits=seen; writel(0,1);} void start(void){request_irq(h);} __critical void go(void){combolock(&l); writel(1,0); seen=1; combounlock(&l); seen=2;}
