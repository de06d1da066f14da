struct job { u32 n; }; struct job j; u32 log; void (*cb)(u32);
void done(u32 x) { log = log * 10 + x; writel(x, 3); }
__critical void fire(u32 x) { kcall(cb, x); j.n += 1; }
void go(void) { cb = done; fire(1); fire(2); log += j.n; }
