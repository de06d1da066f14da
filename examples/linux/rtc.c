/*
 * A real-time clock after Arm's PL031: a counter of seconds, and an alarm that interrupts.
 * It is written as drivers for Linux are; docs/WORKBENCH.md cuts it.
 */
#include <linux/module.h>
#include <linux/interrupt.h>
#include <linux/io.h>

#define RTC_DR		0x00	/* the seconds since 1970 */
#define RTC_MR		0x04	/* when the alarm is due */
#define RTC_CR		0x0c	/* control */
#define RTC_IMSC	0x10	/* which interrupts are wanted */
#define RTC_MIS		0x18	/* which there are */
#define RTC_ICR		0x1c	/* clears them */
#define RTC_ENABLE	BIT(0)
#define RTC_ALARM	BIT(0)
#define SECS_PER_DAY	(24 * 60 * 60)
#define SLOTS		4

enum rtc_state { RTC_CLOSED, RTC_OPEN };

struct rtc_time {
	int sec, min, hour, day, month, year;
};

struct rtc_chip {
	void __iomem *base;
	spinlock_t lock;
	enum rtc_state state;
	bool armed;
	u32 *log;		/* when the last alarms came */
	u32 logged;
};

static struct rtc_chip rtc;
static const u8 month_days[] = { 31, 28, 31, 30, 31, 30, 31, 31, 30, 31, 30, 31 };

static irqreturn_t rtc_interrupt(int irq, void *dev_id)
{
	u32 status, now;

	status = readl(rtc.base + RTC_MIS);
	if (!(status & RTC_ALARM))
		return IRQ_NONE;
	now = readl(rtc.base + RTC_DR);
	rtc.log[rtc.logged % SLOTS] = now;
	rtc.logged++;
	rtc.armed = false;
	writel(RTC_ALARM, rtc.base + RTC_ICR);
	return IRQ_HANDLED;
}

/* What the calendar says so many days after the first of January 1970. */
static void rtc_to_date(u32 days, struct rtc_time *tm)
{
	u32 length = 365;

	tm->year = 1970;
	while (days >= length) {
		days -= length;
		tm->year++;
		length = 365;
		if (tm->year % 4 == 0)
			length = 366;
	}
	tm->month = 0;
	while (days >= month_days[tm->month]) {
		days -= month_days[tm->month];
		tm->month++;
	}
	tm->day = days + 1;
}

int rtc_read_time(struct rtc_time *tm)
{
	u32 secs;

	if (rtc.state != RTC_OPEN)
		return -ENODEV;
	secs = readl(rtc.base + RTC_DR);
	rtc_to_date(secs / SECS_PER_DAY, tm);
	secs %= SECS_PER_DAY;
	tm->hour = secs / 3600;
	tm->min = secs / 60 % 60;
	tm->sec = secs % 60;
	return 0;
}

int rtc_set_alarm(u32 secs)
{
	unsigned long flags;
	int err = 0;
	u32 now;

	spin_lock_irqsave(&rtc.lock, flags);
	now = readl(rtc.base + RTC_DR);
	if (secs <= now) {
		err = -EINVAL;
		goto out;
	}
	writel(secs, rtc.base + RTC_MR);
	writel(RTC_ALARM, rtc.base + RTC_IMSC);
	rtc.armed = true;
out:
	spin_unlock_irqrestore(&rtc.lock, flags);
	return err;
}

u32 rtc_last_alarm(void)
{
	if (!rtc.logged)
		return 0;
	return rtc.log[(rtc.logged - 1) % SLOTS];
}

int rtc_probe(void)
{
	int err;

	rtc.log = kcalloc(SLOTS, sizeof(u32), GFP_KERNEL);
	if (!rtc.log)
		return -ENOMEM;
	spin_lock_init(&rtc.lock);
	err = request_irq(7, rtc_interrupt, IRQF_SHARED, "rtc", &rtc);
	if (err) {
		dev_err(dev, "rtc: no interrupt, %d\n", err);
		kfree(rtc.log);
		return err;
	}
	writel(RTC_ENABLE, rtc.base + RTC_CR);
	rtc.state = RTC_OPEN;
	return 0;
}

void rtc_remove(void)
{
	writel(0, rtc.base + RTC_CR);
	rtc.state = RTC_CLOSED;
	kfree(rtc.log);
	free_irq(7, &rtc);
}

module_init(rtc_probe);
module_exit(rtc_remove);
MODULE_LICENSE("GPL");
