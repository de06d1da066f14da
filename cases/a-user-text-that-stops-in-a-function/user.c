u32 count;
__remote void bump(void);
void open(void) {
	bump();
	writel(count, 4);
	bump();
