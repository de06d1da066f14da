#include <linux/watchdog.h>
/* A watchdog: user space pings it in time, or else it warns by an interrupt and then resets the machine. Once open it is
 * only stopped where "V" was written before it is closed. */
#define LOAD 0
#define CONTROL 1
#define KICK 2
#define STATUS 3

#define ENABLE 1
#define WARN 2
#define WARNED 1
#define BITE 2
#define MAGIC 0x1acce551

#define TICKS_PER_SECOND 100
#define SHORTEST 1
#define LONGEST 600

#define EBUSY 16
#define ENODEV 19
#define EINVAL 22
#define ENOTTY 25

enum { SET_OPTIONS = 4, KEEP_ALIVE = 5, SET_TIMEOUT = 6, GET_TIMEOUT = 7 };
enum { OPTION_OFF = 1, OPTION_ON = 2 };

struct watchdog {
	combolock_t lock;
	u8 open;
	u8 running;
	u8 may_stop;
	u32 timeout;
	u32 pings;
	u32 warnings;
	u32 resets;
};

struct request {
	u32 code;
	s32 (*run)(u32 argument);
};

static struct watchdog dog;
/* what user space writes */
static s8 alive[6] = "alive";
static s8 farewell[5] = "eVil";

/* The kernel half: pings come often, and a warning by an interrupt. */
static __critical void dog_kick(void)
{
	combolock(&dog.lock);
	writel(MAGIC, KICK);
	dog.pings += 1;
	combounlock(&dog.lock);
}

static void dog_irq(void)
{
	u32 status = readl(STATUS);

	if (status & WARNED) {
		dog.warnings += 1;
		printk(KERN_WARNING "wdt: no ping for %u s\n", dog.timeout);
	}
	writel(status & WARNED, STATUS);
}

/* The user half: what is set up once. */
static void dog_load(u32 seconds)
{
	combolock(&dog.lock);
	dog.timeout = seconds;
	writel(seconds * TICKS_PER_SECOND, LOAD);
	combounlock(&dog.lock);
}

static void dog_start(void)
{
	dog_load(dog.timeout);
	writel(ENABLE | WARN, CONTROL);
	dog.running = 1;
	dog_kick();
}

static void dog_stop(void)
{
	writel(0, CONTROL);
	dog.running = 0;
}

static s32 request_options(u32 options)
{
	if (options & OPTION_OFF)
		dog_stop();
	else if (options & OPTION_ON)
		dog_start();
	else
		return -EINVAL;
	return 0;
}

static s32 request_alive(u32 unused)
{
	dog_kick();
	return 0;
}

static s32 request_timeout(u32 seconds)
{
	if (seconds < SHORTEST || seconds > LONGEST)
		return -EINVAL;
	dog_load(seconds);
	dog_kick();
	return 0;
}

static s32 request_get(u32 unused)
{
	return dog.timeout;
}

static struct request requests[5] = {
	{SET_OPTIONS, request_options},
	{KEEP_ALIVE, request_alive},
	{SET_TIMEOUT, request_timeout},
	{GET_TIMEOUT, request_get},
	{0, NULL}
};

s32 dog_open(void)
{
	s32 err;
	u32 status;

	if (dog.open)
		return -EBUSY;
	status = readl(STATUS);
	if (status & BITE) {
		dog.resets += 1;
		writel(BITE, STATUS);
		printk(KERN_NOTICE "wdt: the machine was reset by this\n");
	}
	if (!dog.running) {
		err = request_irq(dog_irq);
		if (err)
			return err;
		dog.timeout = 60;
		dog_start();
	}
	dog.open = 1;
	dog.may_stop = 0;
	return 0;
}

s32 dog_ioctl(u32 code, u32 argument)
{
	struct request *r;
	s32 result;

	if (!dog.open)
		return -ENODEV;
	for (r = requests; r->code; r += 1)
		if (r->code == code) {
			result = r->run(argument);
			return result;
		}
	return -ENOTTY;
}

s32 dog_write(const s8 *text __nullterm)
{
	u32 i;

	if (!dog.open)
		return -ENODEV;
	dog.may_stop = 0;
	for (i = 0; text[i]; i += 1)
		if (text[i] == 'V')
			dog.may_stop = 1;
	dog_kick();
	return i;
}

/* The last one closes it: where that wasn't announced, it goes on and will bite. */
s32 dog_close(void)
{
	if (!dog.open)
		return -ENODEV;
	if (dog.may_stop) {
		dog_stop();
		free_irq();
	} else {
		printk(KERN_ERR "wdt: closed, and it isn't stopped\n");
		dog_kick();
	}
	dog.open = 0;
	return 0;
}
