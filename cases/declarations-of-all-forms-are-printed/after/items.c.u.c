#define LIMIT 16
#define LOW -3ul
struct dev {
	u32 a;
	u32 *b;
	s8 name[LIMIT];
	s8 *text __nullterm;
	u16 (*act)(u32, struct dev *);
	struct dev *all __array(LIMIT);
	struct dev *list __sentinel(a);
};
struct in {
	u32 x;
	u32 *y;
	u8 z[6];
	void *w __opaque;
};
enum {A, B = 3, C = -1, D = C};
u8 a;
u64 b;
s8 c;
s8 d;
u8 e;
s16 f;
s32 g;
u32 h;
u32 i;
s64 j;
u64 k;
combolock_t l;
combolock_t m[2];
u32 *p[4] __array(a);
u32 **pp;
u32 t[2] = {LIMIT, -1};
s64 n[5] = {16, 8, 97, LOW, -7u};
struct in q = {.x = 1, .y = &h, .z = "a\n\0\\\""};
struct in r = {2, NULL, {1, 97}};
struct in s;
struct in v[2] = {{.y = NULL}, {5}};
u32 *make(u32, struct dev *d __array(4)) __opaque;
void hook(void (*h)(void), u32 (*)(u32 a, void *));
__remote struct dev *find(u32 n);
u32 *make(u32 n, struct dev *d __array(4)) __opaque {
	return d->b;
}
void hook(void (*h)(void), u32 (*other)(u32 a, void *b)) {
	h();
}
void last(void) {
}
void (*hooks[2])(void);
void (*first)(void) = &last;
