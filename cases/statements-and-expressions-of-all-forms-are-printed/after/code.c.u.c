struct s {
	u32 v;
	struct s *next;
	u8 t[4];
};
struct s *g;
u32 a;
u32 b;
u32 c;
u32 d;
u32 e;
u32 *w;
void (*p)(u32);
u32 x;
void *v;
u32 f(void) {
	return 1;
}
struct s *h(void) {
	return g;
}
void k(u32 i, u32 j) {
}
void later(u32 n) {
	x = n;
}
__remote void expressions(void);
u32 statements(u32 n) {
	;
	{
	}
	{
		a = 1;
	}
	a += 1;
	b <<= c;
	b >>= c;
	a -= 1;
	a *= 2;
	a /= 3;
	a %= 4;
	a &= 5;
	a |= 6;
	a ^= 7;
	*w = b;
	k(1, b);
	k(a + 1, -b);
	k(a, (u8)b);
	x = f();
	p(1);
	p(2);
	(*p)(3);
	expressions();
	while (a) {
		break;
		continue;
	}
	if (a) {
		b = 1;
	}
	if (a) {
		;
	} else {
		b = 1;
	}
	if (a) {
		if (b) {
			c = 1;
		} else {
			d = 2;
		}
	}
	if (a) {
		if (b) {
			c = 1;
		}
	} else {
		d = 2;
	}
	if (a) {
		b = 1;
	} else {
		if (c) {
			d = 1;
		} else {
			e = 1;
		}
	}
	if (a) {
	} else {
	}
	if (a) {
		while (b) {
			if (c) {
				d = 1;
			} else {
				e = 2;
			}
		}
	} else {
		x = 3;
	}
	while (a < b) {
		a = a + 1;
	}
	for (; ; ) {
		;
	}
	for (u32 i = 0, j; i < 4; i += 1) {
		x = i;
	}
	for (struct s *i = g, *j = i; j; ) {
		break;
	}
	for (a = 0; ; f()) {
		continue;
	}
	for (f(); a; x = f()) {
		u32 i;
	}
	u32 y;
	u32 *z = w;
	u32 o[2];
	s8 t[6] = "a\n\t\r\0\"";
	struct s *r = h();
	printk("a%d\\'%%\n", b);
	r = kzalloc(struct s);
	r = kcalloc(2, struct s);
	z = kcalloc(n, u32);
	if (n) {
		return f();
	}
	return a + 1;
}
void leave_early(void) {
	if (a) {
		return;
	}
}
