#include <linux/i2c.h>
#include <linux/hwmon.h>
/* An LM75 temperature sensor on an I2C bus: each register is two bytes that are read over the bus's controller, with some
 * tries. Temperatures are in thousandths of a degree. The last ones are kept, for their average. */
#define BUS_ADDRESS 0
#define BUS_COMMAND 1
#define BUS_DATA 2
#define BUS_STATUS 3

#define START_READ 1
#define START_WRITE 2
#define NEXT 4
#define BUSY 1
#define NACK 2

#define REG_TEMP 0
#define REG_CONF 1
#define REG_HYST 2
#define REG_OS 3
#define SHUTDOWN 1

#define TRIES 3
#define PATIENCE 50
#define MOST_SAMPLES 64

#define EIO 5
#define ENXIO 6
#define ENOMEM 12
#define ENODEV 19
#define EINVAL 22
#define ENODATA 61
#define ETIMEDOUT 110

struct lm75 {
	u32 address;
	u32 errors;
	s32 low;
	s32 high;
	u32 size;
	u32 count;
	u32 next;
	s32 *samples __array(size);
};

static struct lm75 *sensor;
/* what a reader of the average gets */
static s32 average;

/* The bus: one transfer ends when it isn't busy any more, and the device may not have answered. */
static s32 i2c_wait(void)
{
	u32 tries, status;

	for (tries = 0; tries < PATIENCE; tries += 1) {
		status = readl(BUS_STATUS);
		if (!(status & BUSY)) {
			if (status & NACK)
				return -ENXIO;
			return 0;
		}
	}
	return -ETIMEDOUT;
}

static s32 i2c_start(u32 address, u32 reg, u32 command)
{
	s32 err;

	writel((address << 8) | reg, BUS_ADDRESS);
	writel(command, BUS_COMMAND);
	err = i2c_wait();
	return err;
}

static s32 i2c_read_once(u32 address, u32 reg)
{
	u32 high, low;
	s32 err = i2c_start(address, reg, START_READ);

	if (err)
		return err;
	high = readl(BUS_DATA);
	writel(NEXT, BUS_COMMAND);
	err = i2c_wait();
	if (err)
		return err;
	low = readl(BUS_DATA);
	return ((high & 0xff) << 8) | (low & 0xff);
}

/* A register's 16 bits, or what the last try failed with. */
static s32 lm75_read(struct lm75 *s, u32 reg)
{
	u32 tries;
	s32 value = -EIO;

	for (tries = 0; tries < TRIES; tries += 1) {
		value = i2c_read_once(s->address, reg);
		if (value != -ENXIO)
			return value;
		s->errors += 1;
	}
	return value;
}

static s32 lm75_write(struct lm75 *s, u32 reg, u32 value)
{
	s32 err;

	writel(value, BUS_DATA);
	err = i2c_start(s->address, reg, START_WRITE);
	if (err)
		s->errors += 1;
	return err;
}

/* Nine bits with a sign, in halves of a degree, stand on top of the register. */
static s32 lm75_decode(s32 raw)
{
	s32 halves = raw >> 7;

	if (halves >= 256)
		halves -= 512;
	return halves * 500;
}

static void lm75_keep(struct lm75 *s, s32 value)
{
	if (!s->count || value < s->low)
		s->low = value;
	if (!s->count || value > s->high)
		s->high = value;
	s->samples[s->next] = value;
	s->next = (s->next + 1) % s->size;
	if (s->count < s->size)
		s->count += 1;
}

s32 lm75_probe(u32 address, u32 size)
{
	struct lm75 *s;
	s32 err;

	if (sensor || !size || size > MOST_SAMPLES)
		return -EINVAL;
	s = kzalloc(struct lm75);
	if (!s)
		return -ENOMEM;
	s->address = address;
	s->samples = kcalloc(size, s32);
	if (!s->samples) {
		kfree(s);
		return -ENOMEM;
	}
	s->size = size;
	err = lm75_write(s, REG_CONF, 0);
	if (err) {
		kfree(s->samples);
		kfree(s);
		return -ENODEV;
	}
	sensor = s;
	printk(KERN_INFO "lm75: at %x, %u samples\n", address, size);
	return 0;
}

s32 lm75_sample(void)
{
	s32 raw;

	if (!sensor)
		return -ENODEV;
	raw = lm75_read(sensor, REG_TEMP);
	if (raw < 0)
		return raw;
	raw = lm75_decode(raw);
	lm75_keep(sensor, raw);
	return 0;
}

s32 lm75_average(s32 *result)
{
	u32 i;
	s32 sum = 0;

	if (!sensor)
		return -ENODEV;
	if (!sensor->count)
		return -ENODATA;
	for (i = 0; i < sensor->count; i += 1)
		sum += sensor->samples[i];
	*result = sum / (s32)sensor->count;
	return 0;
}

/* The alarm: it comes at `high` and goes at `low`, both in thousandths. */
s32 lm75_set_limits(s32 low, s32 high)
{
	s32 err;

	if (!sensor)
		return -ENODEV;
	if (low >= high || low < -55000 || high > 125000)
		return -EINVAL;
	err = lm75_write(sensor, REG_HYST, (u32)(low / 500) << 7);
	if (err)
		return err;
	err = lm75_write(sensor, REG_OS, (u32)(high / 500) << 7);
	return err;
}

void lm75_remove(void)
{
	s32 err;

	if (!sensor)
		return;
	err = lm75_write(sensor, REG_CONF, SHUTDOWN);
	if (err)
		printk(KERN_WARNING "lm75: stays on (%d)\n", err);
	kfree(sensor->samples);
	kfree(sensor);
	sensor = NULL;
}
