#include <linux/module.h>
#include <linux/interrupt.h>
/* An analog to digital converter. Its interrupt keeps the values that come, the layer above polls, and a function that
 * user code set is called back with each value: behind the handler and the lock, since in these nothing may wait. */
#define STATUS 0
#define VALUE 1
#define CONTROL 2

#define READY 1
#define START 1

#define RING 4

#define EBUSY 16
#define ERANGE 34

struct adc {
	combolock_t lock;
	u32 ring[RING];
	u32 came;
	u32 taken;
	u32 lost;
	/* what is done with a value: 0, or why no further one is taken */
	s32 (*take)(u32 value);
};

struct result {
	u32 values;
	u32 sum;
	u32 limit;
	u32 alarms;
};

static struct adc adc;
static struct result result;

/* The kernel half: the interrupt, and what takes the values that it kept. */
static void adc_irq(void)
{
	u32 value;

	if (!(readl(STATUS) & READY))
		return;
	value = readl(VALUE);
	if (adc.came - adc.taken < RING) {
		adc.ring[adc.came % RING] = value;
		adc.came += 1;
	} else {
		adc.lost += 1;
	}
	writel(READY, STATUS);
}

static __critical void adc_drop(void)
{
	combolock(&adc.lock);
	adc.lost += adc.came - adc.taken;
	adc.taken = adc.came;
	combounlock(&adc.lock);
}

__critical s32 adc_poll(void)
{
	u32 value;
	s32 err;

	for (;;) {
		combolock(&adc.lock);
		if (adc.taken == adc.came)
			break;
		value = adc.ring[adc.taken % RING];
		adc.taken += 1;
		combounlock(&adc.lock);
		err = kcall(adc.take, value);
		if (err)
			return err;
	}
	combounlock(&adc.lock);
	return 0;
}

/* The user half: what is done with them. */
static s32 take_sum(u32 value)
{
	result.values += 1;
	result.sum += value;
	return 0;
}

static s32 take_limited(u32 value)
{
	if (value <= result.limit)
		return 0;
	result.alarms += 1;
	printk(KERN_WARNING "adc: %u is over %u\n", value, result.limit);
	writel(0, CONTROL);
	adc_drop();
	return -ERANGE;
}

s32 adc_open(void)
{
	s32 err;

	if (adc.take)
		return -EBUSY;
	adc.take = take_sum;
	err = request_irq(adc_irq);
	if (err)
		return err;
	writel(START, CONTROL);
	return 0;
}

u32 adc_average(void)
{
	if (!result.values)
		return 0;
	return result.sum / result.values;
}

void adc_watch(u32 limit)
{
	result.limit = limit;
	adc.take = take_limited;
	writel(START, CONTROL);
}

void adc_close(void)
{
	writel(0, CONTROL);
	free_irq();
	adc.take = NULL;
}
