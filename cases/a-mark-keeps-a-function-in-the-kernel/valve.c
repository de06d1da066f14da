/* A valve: what closes it is marked to stay in the kernel, though no handler calls it. */
struct valve {
	u32 limit;
	u32 closed;
	u32 opened;
};

static struct valve valve;

__critical s32 valve_close(u32 pressure) {
	if (pressure < valve.limit) return -1;
	writel(0, 4);
	valve.closed++;
	return 0;
}

s32 valve_limit(u32 limit) {
	if (!limit) return -22;
	valve.limit = limit;
	return 0;
}

s32 valve_open(u32 pressure) {
	s32 err = valve_close(pressure);
	if (!err) return -16;
	writel(1, 4);
	valve.opened++;
	return 0;
}
