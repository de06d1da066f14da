#include <linux/spi/spi.h>
#include <linux/mtd/mtd.h>
/* A page programmer for serial NOR flash: it finds the chip by its number, erases sectors, writes pages, and reads back
 * what it wrote. One byte goes over the wire and one comes back, in the kernel half; all else is user code. */
#define SPI_SELECT 0
#define SPI_OUT 1
#define SPI_IN 2
#define SPI_STATUS 3
#define SPI_BUSY 1

#define PROGRAM 0x02
#define READ 0x03
#define READ_STATUS 0x05
#define WRITE_ENABLE 0x06
#define READ_ID 0x9f
#define ERASE 0xd8
#define IN_PROGRESS 1

#define PATIENCE 40
#define EIO 5
#define ENOMEM 12
#define EBUSY 16
#define ENODEV 19
#define EINVAL 22
#define ETIMEDOUT 110

struct chip {
	u32 id;
	u32 size;
	u32 page;
	u32 sector;
};

struct flash {
	struct chip *chip;
	u32 page;
	u8 *buffer __array(page);
	u32 written;
	u32 erased;
	u32 wrong;
};

static struct chip chips[4] = {
	{0xef4018, 16777216, 256, 65536},
	{0xc22017, 8388608, 256, 65536},
	{0x1f0501, 65536, 8, 4096},
	{0, 0, 0, 0}
};
static struct flash *flash;
/* what is to be written, for one that has no file system */
static u8 image[20] = "twenty bytes of code";

static __critical u32 spi_byte(u32 out)
{
	u32 tries, status, in;

	writel(out, SPI_OUT);
	for (tries = 0; tries < PATIENCE; tries += 1) {
		status = readl(SPI_STATUS);
		if (!(status & SPI_BUSY))
			break;
	}
	in = readl(SPI_IN);
	return in & 0xff;
}

static __critical void spi_command(u32 command)
{
	writel(1, SPI_SELECT);
	spi_byte(command);
}

static __critical void spi_address(u32 address)
{
	spi_byte((address >> 16) & 0xff);
	spi_byte((address >> 8) & 0xff);
	spi_byte(address & 0xff);
}

static __critical void spi_end(void)
{
	writel(0, SPI_SELECT);
}

/* The chip says itself when it is done. */
static s32 flash_wait(void)
{
	u32 tries, status;

	for (tries = 0; tries < PATIENCE; tries += 1) {
		spi_command(READ_STATUS);
		status = spi_byte(0);
		spi_end();
		if (!(status & IN_PROGRESS))
			return 0;
	}
	return -ETIMEDOUT;
}

static void flash_write_enable(void)
{
	spi_command(WRITE_ENABLE);
	spi_end();
}

static struct chip *chip_of(u32 id)
{
	struct chip *c;

	for (c = chips; c->id; c += 1)
		if (c->id == id)
			return c;
	return NULL;
}

static u32 flash_id(void)
{
	u32 i, byte, id = 0;

	spi_command(READ_ID);
	for (i = 0; i < 3; i += 1) {
		byte = spi_byte(0);
		id = (id << 8) | byte;
	}
	spi_end();
	return id;
}

s32 flash_probe(void)
{
	struct flash *f;
	struct chip *c;
	u32 id;

	if (flash)
		return -EBUSY;
	id = flash_id();
	c = chip_of(id);
	if (!c) {
		printk(KERN_ERR "flash: chip %x isn't known\n", id);
		return -ENODEV;
	}
	f = kzalloc(struct flash);
	if (!f)
		return -ENOMEM;
	f->buffer = kcalloc(c->page, u8);
	if (!f->buffer) {
		kfree(f);
		return -ENOMEM;
	}
	f->page = c->page;
	f->chip = c;
	flash = f;
	printk(KERN_INFO "flash: %u bytes in pages of %u\n", c->size, c->page);
	return 0;
}

s32 flash_erase(u32 address)
{
	s32 err;

	if (!flash)
		return -ENODEV;
	if (address >= flash->chip->size || address % flash->chip->sector)
		return -EINVAL;
	flash_write_enable();
	spi_command(ERASE);
	spi_address(address);
	spi_end();
	err = flash_wait();
	if (!err)
		flash->erased += 1;
	return err;
}

/* So many bytes of the buffer, which stay within one page of the chip. */
static s32 flash_program(u32 address, u32 length)
{
	u32 i;
	s32 err;

	flash_write_enable();
	spi_command(PROGRAM);
	spi_address(address);
	for (i = 0; i < length; i += 1)
		spi_byte(flash->buffer[i]);
	spi_end();
	err = flash_wait();
	return err;
}

s32 flash_write(u32 address, u8 *data __array(length), u32 length)
{
	u32 done = 0, part, i;
	s32 err;

	if (!flash)
		return -ENODEV;
	if (address >= flash->chip->size || length > flash->chip->size - address)
		return -EINVAL;
	while (done < length) {
		part = flash->page - (address + done) % flash->page;
		if (part > length - done)
			part = length - done;
		for (i = 0; i < part; i += 1)
			flash->buffer[i] = data[done + i];
		err = flash_program(address + done, part);
		if (err)
			return err;
		done += part;
		flash->written += part;
	}
	return 0;
}

/* How many of these bytes the chip has otherwise. */
u32 flash_verify(u32 address, u8 *data __array(length), u32 length)
{
	u32 i, byte, wrong = 0;

	if (!flash)
		return length;
	spi_command(READ);
	spi_address(address);
	for (i = 0; i < length; i += 1) {
		byte = spi_byte(0);
		if (byte != data[i])
			wrong += 1;
	}
	spi_end();
	flash->wrong += wrong;
	return wrong;
}

void flash_remove(void)
{
	if (!flash)
		return;
	kfree(flash->buffer);
	kfree(flash);
	flash = NULL;
}
