u32 log; u32 seen; void (*cb)(u32 *);
__critical void fire(u32 n){ u32 *q; q=kzalloc(u32); *q=n; kcall(cb,q); kfree(q); }
void done(u32 *p){ u32 y; u32 *z; z=&y; *z=*p; log=log*10+*z; if(*z){ fire(*z-1); } seen=seen+1; }
void go(void){ u32 loc; u32 *l; l=&loc; *l=7; cb=done; fire(2); seen=seen+*l; }
