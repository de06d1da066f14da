u32 n; combolock_t m;
void user(u32 x) { n += x * 2; }
__critical void lock(void) { combolock(&m); }
__critical void back(void) { kcall(user, 4); }
void via(void) { back(); }
