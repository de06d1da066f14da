u32 count;
__critical void bump(void) {
	co@nt = count + 1;
}
__remote void open(void);
