combolock_t m;
void cb(u32 x) { }
__critical void bad(void) { combolock(&m); kcall(cb, 1); }
