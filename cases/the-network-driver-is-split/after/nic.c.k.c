#define RING 4
#define STATUS 1
enum {IDLE, UP = 2};
struct buf {
	u32 len;
	u8 bytes[8];
	struct buf *next;
};
struct stats {
	u32 sent;
	u32 got;
	u32 errors;
};
struct card {
	combolock_t lock;
	u32 state;
	struct stats st;
	struct buf *ring[RING];
	u32 head;
	struct buf *spare;
};
struct op {
	u32 code;
	s32 (*run)(u32 arg);
};
struct card card;
void nic_irq(void) {
	u32 s;
	s = readl(STATUS);
	if (s & 1) {
		card.st.sent += 1;
	}
	if (s & 2) {
		card.st.errors += 1;
	}
	writel(0, STATUS);
}
__remote s32 op_state(u32 arg);
__remote s32 op_reset(u32 arg);
struct op ops[3] = {{1, op_state}, {2, op_reset}, {0, NULL}};
__remote s32 nic_probe(void);
__remote s32 nic_open(void);
__critical s32 nic_transmit(u32 len) {
	struct buf *b;
	combolock(&card.lock);
	if (card.state != UP) {
		combounlock(&card.lock);
		return -100;
	}
	b = card.ring[card.head];
	b->len = len;
	card.head = (card.head + 1) % RING;
	writel(len, 2);
	combounlock(&card.lock);
	return 0;
}
__remote s32 nic_ioctl(u32 code, u32 arg);
__remote s32 nic_total(void);
