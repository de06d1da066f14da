struct job {
	u32 n;
};
struct job j;
u32 log;
void (*cb)(u32);
void done(u32 x) {
	log = (log * 10) + x;
	writel(x, 3);
}
__remote void fire(u32 x);
void go(void) {
	cb = done;
	kcall(fire, cb);
	fire(2);
	log += j.n;
}
