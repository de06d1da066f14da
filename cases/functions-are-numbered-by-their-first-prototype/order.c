void c(void);
void a(void);
void b(void) { c(); }
void a(void) { b(); }
void c(void) { }
