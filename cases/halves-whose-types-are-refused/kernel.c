struct gone *lost;
u32 count;
__critical void bump(void) {
	count = count + 1;
}
__remote void open(void);
