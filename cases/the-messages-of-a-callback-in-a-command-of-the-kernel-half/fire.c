u32 hits; u32 n; void (*cb)(u32);
__critical void h(void){ hits=hits+1; writel(0,1); }
void done(u32 x){ n=n+x; writel(1,0); n=n+1; }
__critical void init(void){ request_irq(h); cb=done; }
__critical void fire(u32 x){ kcall(cb,x); n=n+100; }
