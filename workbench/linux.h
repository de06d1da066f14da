/* Names of Linux drivers, and what this language has in their place: workbench/prep gives them to gcc -E. A name that the
   driver itself defines isn't taken from here. The numbers of errors (EINVAL ..) come beside these. */

/* types. A bool is a u8: it keeps the low bits of what it gets, so write "x != 0" where that may be more than 1. */
#define bool u8
#define true 1
#define false 0
#define uint8_t u8
#define uint16_t u16
#define uint32_t u32
#define uint64_t u64
#define int8_t s8
#define int16_t s16
#define int32_t s32
#define int64_t s64
#define __u8 u8
#define __u16 u16
#define __u32 u32
#define __u64 u64
#define __s8 s8
#define __s16 s16
#define __s32 s32
#define __s64 s64
#define __le16 u16
#define __be16 u16
#define __le32 u32
#define __be32 u32
#define size_t u64
#define ssize_t s64
#define loff_t s64
#define sector_t u64
#define dma_addr_t u64
#define gfp_t u32
#define uint u32
#define spinlock_t combolock_t
#define raw_spinlock_t combolock_t

/* locks; interrupts wait while one is held */
#define DEFINE_SPINLOCK(l) combolock_t l
#define DEFINE_MUTEX(l) combolock_t l
#define spin_lock_init(l)
#define mutex_init(l)
#define spin_lock(l) combolock(l)
#define spin_lock_irq(l) combolock(l)
#define spin_lock_bh(l) combolock(l)
#define spin_lock_irqsave(l, flags) combolock(l)
#define spin_unlock(l) combounlock(l)
#define spin_unlock_irq(l) combounlock(l)
#define spin_unlock_bh(l) combounlock(l)
#define spin_unlock_irqrestore(l, flags) combounlock(l)
#define mutex_lock(l) combolock(l)
#define mutex_unlock(l) combounlock(l)

/* numbers */
#define BIT(n) (1u << (n))
#define BIT_ULL(n) (1ul << (n))
#define GENMASK(h, l) ((~0u << (l)) & (~0u >> (31 - (h))))
#define DIV_ROUND_UP(n, d) (((n) + (d) - 1) / (d))
#define U8_MAX 255
#define U16_MAX 65535
#define U32_MAX 4294967295u
#define INT_MAX 2147483647
#define UINT_MAX 4294967295u
#define likely(x) (x)
#define unlikely(x) (x)

/* the device: a register is a number */
#define readl_relaxed(r) readl(r)
#define writel_relaxed(v, r) writel(v, r)
#define ioread8(r) readl(r)
#define ioread16(r) readl(r)
#define ioread32(r) readl(r)
#define iowrite8(v, r) writel(v, r)
#define iowrite16(v, r) writel(v, r)
#define iowrite32(v, r) writel(v, r)
#define readb(r) readl(r)
#define readw(r) readl(r)
#define writeb(v, r) writel(v, r)
#define writew(v, r) writel(v, r)
#define inb(r) readl(r)
#define inw(r) readl(r)
#define inl(r) readl(r)
#define outb(v, r) writel(v, r)
#define outw(v, r) writel(v, r)
#define outl(v, r) writel(v, r)

/* memory and messages */
#define vfree(p) kfree(p)
#define devm_kfree(dev, p) kfree(p)
#define KERN_EMERG KERN_ERR
#define KERN_ALERT KERN_ERR
#define KERN_CRIT KERN_ERR
#define KERN_CONT
#define pr_emerg(...) printk(KERN_ERR __VA_ARGS__)
#define pr_crit(...) printk(KERN_ERR __VA_ARGS__)
#define pr_err(...) printk(KERN_ERR __VA_ARGS__)
#define pr_warn(...) printk(KERN_WARNING __VA_ARGS__)
#define pr_notice(...) printk(KERN_NOTICE __VA_ARGS__)
#define pr_info(...) printk(KERN_INFO __VA_ARGS__)
#define pr_debug(...) printk(KERN_DEBUG __VA_ARGS__)
#define dev_err(dev, ...) printk(KERN_ERR __VA_ARGS__)
#define dev_warn(dev, ...) printk(KERN_WARNING __VA_ARGS__)
#define dev_info(dev, ...) printk(KERN_INFO __VA_ARGS__)
#define dev_dbg(dev, ...) printk(KERN_DEBUG __VA_ARGS__)
#define BUG_ON(c) { if (c) BUG(); }

/* what a script has in its place: time passes by "idle N" */
#define udelay(n)
#define mdelay(n)
#define msleep(n)
#define usleep_range(a, b)
#define cpu_relax()

/* nothing */
#define IRQ_HANDLED
#define IRQ_NONE
#define __init
#define __exit
#define __iomem
#define __user
#define __force
#define __maybe_unused
#define MODULE_LICENSE(x)
#define MODULE_AUTHOR(x)
#define MODULE_DESCRIPTION(x)
#define MODULE_ALIAS(x)
#define MODULE_DEVICE_TABLE(a, b)
#define EXPORT_SYMBOL(x)
#define EXPORT_SYMBOL_GPL(x)
#define module_init(f)
#define module_exit(f)
#define module_platform_driver(d)
