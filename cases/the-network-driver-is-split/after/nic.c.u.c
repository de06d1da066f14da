#define RING 4
#define STATUS 1
enum {IDLE, UP = 2};
struct buf {
	u32 len;
	u8 bytes[8];
	struct buf *next;
};
struct stats {
	u32 sent;
	u32 got;
	u32 errors;
};
struct card {
	combolock_t lock;
	u32 state;
	struct stats st;
	struct buf *ring[RING];
	u32 head;
	struct buf *spare;
};
struct op {
	u32 code;
	s32 (*run)(u32 arg);
};
struct card card;
__remote void nic_irq(void);
s32 op_state(u32 arg) {
	card.state = arg;
	return 0;
}
s32 op_reset(u32 arg) {
	card.st.sent = 0;
	card.st.errors = arg;
	return 0;
}
struct op ops[3] = {{1, op_state}, {2, op_reset}, {0, NULL}};
s32 nic_probe(void) {
	u32 i;
	struct buf *b;
	s32 err;
	for (i = 0; i < RING; i += 1) {
		b = kzalloc(struct buf);
		if (!b) {
			return -12;
		}
		b->len = i + 1;
		card.ring[i] = b;
	}
	err = request_irq(nic_irq);
	if (err) {
		return err;
	}
	printk("nic: %u buffers\n", i);
	return 0;
}
s32 nic_open(void) {
	card.state = UP;
	writel(1, 0);
	return 0;
}
__remote s32 nic_transmit(u32 len);
s32 nic_ioctl(u32 code, u32 arg) {
	struct op *o;
	s32 r;
	o = ops;
	while (o->code) {
		if (o->code == code) {
			r = o->run(arg);
			return r;
		}
		o += 1;
	}
	return -25;
}
s32 nic_total(void) {
	u32 i;
	u32 t;
	struct buf *b;
	t = 0;
	for (i = 0; i < RING; i += 1) {
		b = card.ring[i];
		t += b->len;
	}
	return t;
}
