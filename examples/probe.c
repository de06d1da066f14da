struct page { u32 len; u8 *bytes __array(len); struct page *next; };
struct page *pages; u32 irqs;

static void probe_irq(void) { irqs += 1; writel(0, 1); }

s32 probe_add(u32 len) {
	struct page *p;
	p = kzalloc(struct page);
	if (!p) return -12;
	p->bytes = kcalloc(len, u8);
	if (!p->bytes) { kfree(p); return -12; }
	p->len = len;
	p->next = pages;
	pages = p;
	return 0;
}

s32 probe_fill(struct page **at, s8 step) {
	struct page *p; u32 i; u32 b;
	p = *at;
	if (!p) return -19;
	for (i = 0; i < p->len; i += 1) { b = readl(0); p->bytes[i] = b + i * step; }
	deliver(p->bytes, p->len);
	printk("probe: %u bytes\n", p->len);
	return 0;
}

void probe_open(void) { s32 err; err = request_irq(probe_irq); if (err) BUG(); writel(5, 2); }
