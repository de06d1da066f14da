struct three { u32 a; u32 b; u32 c; };
struct two { u32 a; u32 b; };
struct three *first;
struct two *second;
struct two *third;

void begin(void)
{
	first = kzalloc(struct three);
	second = kzalloc(struct two);
}

void drop_first(void)
{
	kfree(first);
	first = NULL;
}

void take(void)
{
	third = kzalloc(struct two);
}

void drop_second(void)
{
	kfree(second);
	second = NULL;
}
