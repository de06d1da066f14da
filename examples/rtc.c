/*
 * A real-time clock after Arm's PL031: a counter of seconds, and an alarm that interrupts.
 * It is written as drivers for Linux are; docs/WORKBENCH.md cuts it.
 */




#define RTC_DR		0x00	/* the seconds since 1970 */
#define RTC_MR		0x04	/* when the alarm is due */
#define RTC_CR		0x0c	/* control */
#define RTC_IMSC	0x10	/* which interrupts are wanted */
#define RTC_MIS		0x18	/* which there are */
#define RTC_ICR		0x1c	/* clears them */
#define RTC_ENABLE 1u
#define RTC_ALARM 1u
#define SECS_PER_DAY 86400
#define SLOTS		4

enum { RTC_CLOSED, RTC_OPEN };

struct rtc_time {
	int sec, min, hour, day, month, year;
};

struct rtc_chip {
	void *base;
	combolock_t lock;
	s32 state;
	u8 armed;
	u32 *log __array(SLOTS);		/* when the last alarms came */
	u32 logged;
};

struct rtc_time now;
static struct rtc_chip rtc;
static const u8 month_days[12] = { 31, 28, 31, 30, 31, 30, 31, 31, 30, 31, 30, 31 };

static void rtc_interrupt(void)
{
	u32 status, now;

	status = readl(RTC_MIS);
	if (!(status & RTC_ALARM))
		return;
	now = readl(RTC_DR);
	rtc.log[rtc.logged % SLOTS] = now;
	rtc.logged += 1;
	rtc.armed = 0;
	writel(RTC_ALARM, RTC_ICR);
	return;
}

/* What the calendar says so many days after the first of January 1970. */
static void rtc_to_date(u32 days, struct rtc_time *tm)
{
	u32 length = 365;

	tm->year = 1970;
	while (days >= length) {
		days -= length;
		tm->year += 1;
		length = 365;
		if (tm->year % 4 == 0)
			length = 366;
	}
	tm->month = 0;
	while (days >= month_days[tm->month]) {
		days -= month_days[tm->month];
		tm->month += 1;
	}
	tm->day = days + 1;
}

int rtc_read_time(struct rtc_time *tm)
{
	u32 secs;

	if (rtc.state != RTC_OPEN)
		return -19;
	secs = readl(RTC_DR);
	rtc_to_date(secs / SECS_PER_DAY, tm);
	secs %= SECS_PER_DAY;
	tm->hour = secs / 3600;
	tm->min = secs / 60 % 60;
	tm->sec = secs % 60;
	return 0;
}

__critical int rtc_set_alarm(u32 secs)
{
	unsigned long flags;
	int err = 0;
	u32 now;

	combolock(&rtc.lock);
	now = readl(RTC_DR);
	if (secs <= now) {
		err = -22;
	} else {
		writel(secs, RTC_MR);
		writel(RTC_ALARM, RTC_IMSC);
		rtc.armed = 1;
	}
	combounlock(&rtc.lock);
	return err;
}

u32 rtc_last_alarm(void)
{
	if (!rtc.logged)
		return 0;
	return rtc.log[(rtc.logged - 1) % SLOTS];
}

int rtc_probe(void)
{
	int err;

	rtc.log = kcalloc(SLOTS, u32);
	if (!rtc.log)
		return -12;
	;
	err = request_irq(rtc_interrupt);
	if (err) {
		printk(KERN_ERR "rtc: no interrupt, %d\n", err);
		kfree(rtc.log);
		return err;
	}
	writel(RTC_ENABLE, RTC_CR);
	rtc.state = RTC_OPEN;
	return 0;
}

void rtc_remove(void)
{
	writel(0, RTC_CR);
	rtc.state = RTC_CLOSED;
	free_irq();
	kfree(rtc.log);
	rtc.log = NULL;
	rtc.logged = 0;
}
