#include <linux/blkdev.h>
/* A queue of requests for a disk that does one at a time: neighbours are merged, failed ones are tried again, and the
 * interrupt of one that is done starts the next. */
#define SECTOR 0
#define LENGTH 1
#define COMMAND 2
#define STATUS 3
#define CAPACITY 4

#define READ 1
#define WRITE 2
#define FLUSH 3
#define DONE 1
#define FAILED 2

#define LONGEST 8
#define TRIES 3
#define MOST_WAITING 4

#define ENOMEM 12
#define EBUSY 16
#define ENODEV 19
#define EINVAL 22

struct request {
	u32 op;
	u32 sector;
	u32 count;
	u32 tries;
	struct request *next;
};

struct stats {
	u32 done;
	u32 failed;
	u32 merged;
	u32 retried;
};

struct queue {
	combolock_t lock;
	u32 capacity;
	u32 waiting;
	struct request *first;
	struct request *last;
	struct request *active;
	struct stats stats;
};

static struct queue *queue;

/* The kernel half: it starts requests and ends them, with the lock or within the interrupt. */
static void blk_issue(struct request *r)
{
	r->tries += 1;
	writel(r->sector, SECTOR);
	writel(r->count, LENGTH);
	writel(r->op, COMMAND);
}

static __critical void blk_next(void)
{
	struct request *r = queue->first;

	if (queue->active || !r)
		return;
	queue->first = r->next;
	if (!queue->first)
		queue->last = NULL;
	queue->waiting -= 1;
	r->next = NULL;
	queue->active = r;
	blk_issue(r);
}

static void blk_end(struct request *r, u32 status)
{
	if (status & FAILED && r->tries < TRIES) {
		queue->stats.retried += 1;
		blk_issue(r);
		return;
	}
	if (status & FAILED) {
		queue->stats.failed += 1;
		printk(KERN_ERR "blk: sector %u failed\n", r->sector);
	} else {
		queue->stats.done += 1;
	}
	queue->active = NULL;
	kfree(r);
	blk_next();
}

static void blk_irq(void)
{
	u32 status = readl(STATUS);

	writel(0, STATUS);
	if (!(status & (DONE | FAILED)) || !queue->active)
		return;
	blk_end(queue->active, status);
}

/* The user half: it makes requests and puts them in the queue. */
static u8 blk_can_merge(struct request *r, u32 op, u32 sector, u32 count)
{
	if (!r || r->op != op || op == FLUSH)
		return 0;
	return r->sector + r->count == sector && r->count + count <= LONGEST;
}

static s32 blk_check(u32 op, u32 sector, u32 count)
{
	if (op < READ || op > FLUSH)
		return -EINVAL;
	if (op != FLUSH && (!count || count > LONGEST))
		return -EINVAL;
	if (sector >= queue->capacity || count > queue->capacity - sector)
		return -EINVAL;
	return 0;
}

/* Takes the request, or joins it to the last one that waits; with the lock. */
static void blk_add(struct request *r)
{
	u8 can_merge;

	can_merge = blk_can_merge(queue->last, r->op, r->sector, r->count);
	if (can_merge) {
		queue->last->count += r->count;
		queue->stats.merged += 1;
		kfree(r);
		return;
	}
	if (queue->last)
		queue->last->next = r;
	else
		queue->first = r;
	queue->last = r;
	queue->waiting += 1;
}

s32 blk_submit(u32 op, u32 sector, u32 count)
{
	struct request *r;
	s32 err;

	if (!queue)
		return -ENODEV;
	err = blk_check(op, sector, count);
	if (err)
		return err;
	r = kzalloc(struct request);
	if (!r)
		return -ENOMEM;
	r->op = op;
	r->sector = sector;
	r->count = count;
	combolock(&queue->lock);
	if (queue->waiting == MOST_WAITING) {
		combounlock(&queue->lock);
		kfree(r);
		return -EBUSY;
	}
	blk_add(r);
	blk_next();
	combounlock(&queue->lock);
	return 0;
}

s32 blk_probe(void)
{
	struct queue *q;
	s32 err;

	if (queue)
		return -EBUSY;
	q = kzalloc(struct queue);
	if (!q)
		return -ENOMEM;
	q->capacity = readl(CAPACITY);
	if (!q->capacity) {
		kfree(q);
		return -ENODEV;
	}
	queue = q;
	err = request_irq(blk_irq);
	if (err) {
		queue = NULL;
		kfree(q);
		return err;
	}
	printk(KERN_INFO "blk: %u sectors\n", q->capacity);
	return 0;
}

/* No interrupt may come any more before what it uses is freed. */
void blk_remove(void)
{
	struct request *r, *next;

	if (!queue)
		return;
	free_irq();
	for (r = queue->first; r; r = next) {
		next = r->next;
		kfree(r);
	}
	kfree(queue->active);
	kfree(queue);
	queue = NULL;
}
