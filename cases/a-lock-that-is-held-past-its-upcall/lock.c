u32 hits; combolock_t l; void h(void){hits=hits+1; writel(0,1);} void take(void){request_irq(h); combolock(&l); writel(1,0);} void give(void){combounlock(&l);}
