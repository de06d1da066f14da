struct job {
	u32 n;
};
struct job j;
u32 log;
void (*cb)(u32);
__remote void done(u32 x);
__critical void fire(u32 x) {
	kcall(cb, x);
	j.n += 1;
}
__remote void go(void);
