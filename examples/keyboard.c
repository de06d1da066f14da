#include <linux/module.h>
#include <linux/interrupt.h>
/* A PS/2 keyboard behind an i8042 controller: scan codes come by interrupts, go through a key map into a ring, and are
 * read from there as characters. */
#define DATA 0x60
#define STATUS 0x64
#define COMMAND 0x65
#define OUTPUT_FULL 0x01
#define INPUT_FULL 0x02
#define PARITY 0x80

#define SELF_TEST 0xaa
#define SELF_TEST_OK 0x55
#define ENABLE 0xae
#define DISABLE 0xad
#define SET_LEDS 0xed
#define ACK 0xfa

#define RELEASED 0x80
#define LEFT_SHIFT 0x2a
#define RIGHT_SHIFT 0x36
#define FIRST_KEY 2
#define LAST_KEY 57
#define RING 8
#define PATIENCE 20

#define EIO 5
#define EAGAIN 11
#define EBUSY 16
#define EINVAL 22

struct ring {
	u32 head;
	u32 count;
	u8 keys[RING];
};

struct stats {
	u32 keys;
	u32 overruns;
	u32 parity;
	u32 unknown;
};

struct keyboard {
	combolock_t lock;
	u8 open;
	u8 shift;
	u32 leds;
	struct ring ring;
	struct stats stats;
};

static struct keyboard kbd;
static u8 keymap[57] = "1234567890-=\0\tqwertyuiop[]\n\0asdfghjkl;'`\0\\zxcvbnm,./\0*\0 ";

/* The kernel half: from a scan code to the ring. */
static void kbd_push(u8 key)
{
	struct ring *r = &kbd.ring;

	if (r->count == RING) {
		kbd.stats.overruns += 1;
		return;
	}
	r->keys[(r->head + r->count) % RING] = key;
	r->count += 1;
	kbd.stats.keys += 1;
}

static void kbd_decode(u32 code)
{
	u32 key = code & 0x7f;
	u8 letter;

	if (key == LEFT_SHIFT || key == RIGHT_SHIFT) {
		kbd.shift = !(code & RELEASED);
		return;
	}
	if (code & RELEASED)
		return;
	letter = 0;
	if (key >= FIRST_KEY && key <= LAST_KEY)
		letter = keymap[key - FIRST_KEY];
	if (!letter) {
		kbd.stats.unknown += 1;
		return;
	}
	if (kbd.shift && letter >= 'a' && letter <= 'z')
		letter -= 32;
	kbd_push(letter);
}

static void kbd_irq(void)
{
	u32 status = readl(STATUS);
	u32 code;

	if (!(status & OUTPUT_FULL))
		return;
	code = readl(DATA);
	if (status & PARITY) {
		kbd.stats.parity += 1;
		return;
	}
	kbd_decode(code);
}

/* The user half: bringing the controller up, its lights, and reading. */
static s32 kbd_wait(u32 mask, u32 wanted)
{
	u32 tries, status;

	for (tries = 0; tries < PATIENCE; tries += 1) {
		status = readl(STATUS);
		if ((status & mask) == wanted)
			return 0;
	}
	return -EIO;
}

static s32 kbd_send(u32 value, u32 reg)
{
	s32 err = kbd_wait(INPUT_FULL, 0);

	if (err)
		return err;
	writel(value, reg);
	return 0;
}

static s32 kbd_answer(u32 wanted)
{
	u32 answer;
	s32 err = kbd_wait(OUTPUT_FULL, OUTPUT_FULL);

	if (err)
		return err;
	answer = readl(DATA);
	if (answer != wanted)
		return -EIO;
	return 0;
}

s32 kbd_open(void)
{
	s32 err;

	if (kbd.open)
		return -EBUSY;
	err = kbd_send(SELF_TEST, COMMAND);
	if (err)
		return err;
	err = kbd_answer(SELF_TEST_OK);
	if (err) {
		printk(KERN_ERR "kbd: self-test failed\n");
		return err;
	}
	err = request_irq(kbd_irq);
	if (err)
		return err;
	err = kbd_send(ENABLE, COMMAND);
	if (err) {
		free_irq();
		return err;
	}
	kbd.open = 1;
	return 0;
}

/* The lights: the controller answers on the line that keys come by, so the handler is away meanwhile. */
s32 kbd_set_leds(u32 leds)
{
	s32 err, again;

	if (!kbd.open || leds > 7)
		return -EINVAL;
	free_irq();
	err = kbd_send(SET_LEDS, DATA);
	if (!err)
		err = kbd_answer(ACK);
	if (!err)
		err = kbd_send(leds, DATA);
	if (!err)
		kbd.leds = leds;
	again = request_irq(kbd_irq);
	if (again)
		return again;
	return err;
}

s32 kbd_read(void)
{
	struct ring *r = &kbd.ring;
	s32 key;

	combolock(&kbd.lock);
	if (!r->count) {
		combounlock(&kbd.lock);
		return -EAGAIN;
	}
	key = r->keys[r->head];
	r->head = (r->head + 1) % RING;
	r->count -= 1;
	combounlock(&kbd.lock);
	return key;
}

void kbd_close(void)
{
	if (!kbd.open)
		return;
	writel(DISABLE, COMMAND);
	free_irq();
	kbd.open = 0;
	printk(KERN_INFO "kbd: %u keys, %u lost\n", kbd.stats.keys, kbd.stats.overruns);
}
