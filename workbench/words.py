"""What microdriver's answers mean, in words: the tables of `explain`. Each entry has what the word means, and what
usually helps."""

SOURCE = {
    'BadByte': (
        'This byte begins no word of the language.',
        'Outside comments a source is printable ASCII. A line with a # is "#include ..", which is skipped, or "#define NAME NUMBER", one whole '
        'number. workbench/prep FILE writes all other macros out, and leaves the lines where they are.'),
    'BadNumber': (
        'This is no whole number of at most 64 bits.',
        'A number is decimal, octal or 0x hexadecimal, with a suffix of u, l or ll, and no letter, digit, "_" or "." right behind it.'),
    'OpenComment': (
        'A comment begins here, and nothing closes it.',
        'Close it by */.'),
    'OpenText': (
        'A text or a character constant begins here, and it isn\'t closed on its line or holds what it may not.',
        'It holds printable ASCII and the escapes \\n \\t \\r \\0 \\\\ \\\' \\". A character constant has one character.'),
    'NotInProfile': (
        'The language does without this word of C.',
        'Say it by other words.'),
    'Expected': (
        'What stands in front of this could begin a source, but no source goes on with this here.',
        'Look at what stands right before it, too: a ";" or a ")" may be missing, or a type that isn\'t known here was taken for a name. Types are '
        'u8 to u64, s8 to s64, C\'s integers, struct NAME, combolock_t, and pointers to them. Nothing nests deeper than 256 forms or 512 parentheses.'),
    'UnknownName': (
        'No declaration of this name is known here, or the struct has no such member.',
        'Declare it further up: a function that comes later by a prototype, a macro as #define NAME NUMBER or enum { NAME };.'),
    'Redefined': (
        'This name is declared already in the same scope.',
        'Rename one of the two. A #define counts in the whole file, and a local may not have a parameter\'s name.'),
    'Mismatch': (
        'The types don\'t suit each other here.',
        'Of a call this is told at the callee, of an assignment at its operator, of a declaration at the declared name. A pointer becomes a pointer '
        'of its own type or void *; only a literal 0 and NULL are null pointers; structs are neither assigned nor passed, but pointers to them are.'),
    'NotAnLvalue': (
        'This is a value, and no object that has a place.',
        'Only a variable, a member, an element or what a pointer points to is assigned, or has an address.'),
    'BadAnnotation': (
        'This annotation doesn\'t suit what it stands behind.',
        'Annotations stand behind pointers alone: __array(LENGTH) with a positive constant, or an integer parameter, field or global; '
        '__sentinel(FIELD) behind a pointer to a struct; __nullterm behind a pointer to u8 or s8; a void * takes __opaque or none.'),
    'IrqTarget': (
        'What request_irq is given is no handler.',
        'It takes the name of a function void f(void), and nothing else.'),
    'Limit': (
        'There is more of something than may be.',
        'At most: 63 bytes of a name, 1,024 functions, 1,024 globals, 256 structs, 64 fields of a struct, 8 parameters and 64 locals of a '
        'function, 65,536 cells of an object.'),
    'Incomplete': (
        'This struct or function is declared or used, and the file never defines it.',
        'Define it, or take its prototype away: a driver is one file, and what the kernel gives are the services alone.'),
    'BadArity': (
        'This call has more or fewer arguments than it takes.',
        'Of printk: one for each directive of its text; of kcall: a function of one parameter, and its argument.'),
}

LEFT_OUT = {
    'typedef': 'Write the type itself wherever the name stands.',
    'union': 'Use a struct, or bytes that you put together by shifts.',
    'float': 'Count in whole numbers, say in thousandths.',
    'double': 'Count in whole numbers, say in thousandths.',
    'goto': 'Return early, or go on under an "if" with a variable that says whether something failed.',
    'sizeof': 'kzalloc(T) and kcalloc(n, T) take the type itself; else write the number.',
    'asm': 'A driver reaches its device by readl and writel alone.',
    '__asm__': 'A driver reaches its device by readl and writel alone.',
    'extern': 'Leave it out: a prototype says as much, and the file must define the function.',
    'auto': 'Leave it out.',
    'register': 'Leave it out.',
    'restrict': 'Leave it out.',
    '_Bool': 'Use u8 with 0 and 1.',
    '_Complex': 'There are whole numbers alone.',
    '_Imaginary': 'There are whole numbers alone.',
    '...': 'A function has a fixed list of at most 8 parameters.',
}

SCRIPT = {
    'Form': (
        'This is no line of a script, whatever its numbers are.',
        'A line is empty, begins with # in its first column, or is one of: reg R V; on TRIGGER [if R M V] do EFFECT, ..; failalloc K; '
        'call F ARG ..; idle N; show G. Blanks stand between words, no commas between arguments; an argument is a number, null or &GLOBAL; '
        'lines end by a newline alone.'),
    'Range': (
        'A number of this line is too large or too small.',
        'Registers are 0 to 4095, count-downs 0 to 15, words of the device 32 bits, idle 1 to 100000000; an argument must be one that its '
        'parameter\'s type holds.'),
    'Order': (
        'The device is described behind a command.',
        'reg, on and failalloc stand before the first call, idle or show.'),
    'Limit': (
        'The script has more than may be.',
        'At most 10,000 lines, 256 rules and 8 effects of a rule.'),
    'NoFunction': (
        'The driver has no function of this name.',
        'call names a function of the source.'),
    'NoGlobal': (
        'The driver has no global of this name.',
        'show and &NAME name a global of the source, no field and no local.'),
    'Arity': (
        'The function has more or fewer parameters than this call has arguments.',
        'Blanks part arguments.'),
    'ArgKind': (
        'An argument is of another kind than its parameter.',
        'An integer parameter takes a number; a pointer takes null, or &GLOBAL of the type that it points to (of an array, its elements\').'),
}

STOPS = {
    'Null': (
        'A null pointer was used.',
        'Test what an allocation gives, and pointers that may be null, before they are used.'),
    'Dead': (
        'A pointer was read whose memory is no more: kfree freed it, or the local that it pointed to is gone.',
        'Look for the kfree, or the end of the block, that comes before this, in an interrupt\'s handler too; set such pointers to NULL.'),
    'Bounds': (
        'An index, a moved pointer or a register\'s number is out of range.',
        'A pointer may go to one past the last element, and be used up to the last; registers are 0 to 4095.'),
    'Overflow': (
        'A result with a sign doesn\'t fit its type, which C leaves undefined.',
        'Use an unsigned type, which wraps, or a wider one, or test first.'),
    'DivZero': (
        'A division by zero.',
        'Test the divisor first.'),
    'Shift': (
        'A shift by a negative number or by the type\'s width or more, or one to the left whose result with a sign doesn\'t fit.',
        'Shift unsigned values, by 0 to 31 bits (64-bit ones by 0 to 63).'),
    'Compare': (
        'Pointers into different objects, or null, were ordered or subtracted.',
        '== and != take any two; < > <= >= and - want two into one object.'),
    'BadCast': (
        'A void * became a pointer to another type than what it points to.',
        'Convert it back to the type that it had.'),
    'BadCall': (
        'kfree got what no allocation gave.',
        'Free the pointer that kzalloc or kcalloc gave, with no offset, and no global or local.'),
    'NoValue': (
        'The value of a call was used, and the function ended without a return.',
        'Let every way through the function return a value.'),
    'LockHeld': (
        'combolock took a lock that is held already, or kfree got a block with a lock that is held.',
        'Nothing else runs that could free it. Look for a way through a function that leaves out combounlock.'),
    'LockFree': (
        'combounlock got a lock that isn\'t held.',
        'Each combounlock wants one combolock before it.'),
    'Depth': (
        'A call was made with 256 functions active.',
        'A function calls itself without an end; use a loop.'),
    'Bug': (
        'BUG() ran.',
        'The driver itself says that it should not come here.'),
    'Annotation': (
        'User code touched memory that no annotation leads to, or a pointer doesn\'t keep its annotation.',
        'A pointer without an annotation leads to one element. Write __array(LENGTH), __sentinel(FIELD) or __nullterm behind the pointer through which '
        'the cell is reached, see that the length is no more than there is, or keep the function in the kernel half by __critical.'),
    'Ticks': (
        'The budget of ticks is used up.',
        'Give more by --ticks N (1,000,000 without it), or look for a loop that doesn\'t end.'),
    'Atomic': (
        'The kernel half called back into the user half where it may not wait: in an interrupt\'s handler, or while a lock is held that '
        'was taken with no call of the user half open.',
        'Free the lock first (one that an earlier command left held counts, too). Let a handler note what came, and a function that the '
        'layer above calls, call back.'),
}

STATUSES = {
    0: 'The script ended by itself, or the source was cut or reported on, or the transcript is that of its run.',
    1: 'The words are no command. ./microdriver --help lists those that there are.',
    2: 'The source is refused: "source refused LINE:COLUMN KIND" says where and why.',
    3: 'The script is refused: "script refused LINE KIND" says where and why.',
    4: 'A file couldn\'t be read, though it is there.',
    5: 'The output, or a text of split, couldn\'t be written.',
    6: 'The far side didn\'t answer. (This program\'s own far side always does.)',
    7: 'The far side\'s answer was refused. (This program\'s own far side gives no such answer.)',
    8: 'The driver stopped: "stop KIND at FUNCTION STATEMENT" says where and why.',
    9: 'Memory was wanting, and nothing was printed. A driver that allocates and never frees, or a very large budget, takes that much.',
    10: 'A file isn\'t there.',
    11: 'A file is too large: a source has at most 1 MiB, a script 256 KiB, a transcript 64 MiB.',
    12: 'Three texts aren\'t those that one source is cut into: "halves refused T LINE" says which of them, and where.',
    13: 'The transcript isn\'t what run split FILE SCRIPT --wire prints: "differs .." says from which line, message or answer on.',
    14: 'The words couldn\'t be had from the system (one isn\'t UTF-8), or the program couldn\'t be built.',
}

SERVICES = {
    'kzalloc': 'kzalloc(T) gives a T *: a new block of one T, all zero, or null where the script says failalloc.',
    'kcalloc': 'kcalloc(n, T) gives a T *: a new block of n elements T, all zero, or null where the script says failalloc, and for 0 elements or more than 65,536 cells.',
    'kfree': 'kfree(p) ends the life of a block that kzalloc or kcalloc gave; of null it does nothing. Pointers into it are dead from then on.',
    'readl': 'readl(REG) gives the u32 that the device has in a register, 0 to 4095; the report notes it as "R REG VALUE".',
    'writel': 'writel(VALUE, REG) writes a register of the device; the report notes it as "W REG VALUE".',
    'printk': 'printk("..", ..) notes a text in the report, with %d %c (s32), %u %x (u32), %ld (s64), %lu %lx (u64) and %%, with no width. A KERN_ERR, KERN_WARNING, KERN_NOTICE, KERN_INFO or KERN_DEBUG may stand before the text.',
    'request_irq': 'request_irq(f) makes void f(void) the one handler of interrupts and gives 0, or -16 where there is one already. f and what it calls are in the kernel half.',
    'free_irq': 'free_irq() takes the handler away.',
    'deliver': 'deliver(p, n) hands n bytes from p, a u8 *, to whoever uses the driver; the report notes them.',
    'combolock': 'combolock(&l) takes a lock, a combolock_t; interrupts wait while it is held. Both halves may take it.',
    'combounlock': 'combounlock(&l) frees a lock that is held.',
    'BUG': 'BUG() stops the run: what the driver says can\'t be.',
    'kcall': 'kcall(f, a) calls f, a function of one parameter, with a, and gives its result. By it the kernel half calls the user half, where it may wait: in no handler, and while no lock is held that was taken with no call of the user half open (stop Atomic). A function of the caller\'s own half is called as by f(a).',
}

ANNOTATIONS = {
    '__array': 'POINTER __array(LENGTH): it points to so many elements; LENGTH is a positive constant, or an integer parameter, field or global beside it.',
    '__sentinel': 'POINTER __sentinel(FIELD): it points to structs, up to and with the first whose FIELD is 0 or null.',
    '__nullterm': 'POINTER __nullterm: it points to bytes, up to and with the first 0.',
    '__opaque': 'POINTER __opaque: the user half hands it on and looks at nothing behind it.',
    '__critical': '__critical before a function (behind static) keeps it in the kernel half, with all that it may call.',
    '__remote': '__remote marks, in the texts that split writes, a function that the other half has. A source doesn\'t have it.',
}

MESSAGES = {
    'Call': 'To the user half: a function of it is called, with the ticks that are left, its arguments, and what it needs to know of memory.',
    'Return': 'From the user half: the function that was called returned, with its result and the cells that it changed.',
    'Down': 'From the user half: a function of the kernel half is called, with the cells that were changed until then.',
    'Back': 'To the user half: the function of the kernel half returned, with its result and what it needs to know of memory.',
    'Ask': 'From the user half: a service is asked for (readl, kzalloc, combolock ..), with the cells that were changed until then.',
    'Answer': 'To the user half: what the service gave, with the blocks that died or were born; it tells no cells.',
    'Stop': 'From the user half: user code stopped, and why; the run ends.',
    'Refuse': 'From the user half: the last message was refused. This program\'s own user half refuses none.',
}

REPLIES = ('Short', 'Range', 'Padding', 'Kind', 'Trailing', 'NotAwaited', 'TooManyTicks', 'BadPlace', 'BadDepth', 'NoStub', 'BadService',
           'BadArgs', 'BadResult', 'BadStop', 'StillEntered', 'RunOrder', 'OutsideSet', 'UnknownSerial', 'BadView', 'BadValue', 'Load')
REPLY = 'A message of the far side that the kernel half refuses, for this reason, ends the run with status 7. This program\'s own far side sends none.'

# Words of Linux and of C's libraries that sources of drivers have, and what there is here in their place.
HERE = {
    **dict.fromkeys(['bool', 'uint8_t', '__u8', 'uchar'], 'u8'),
    **dict.fromkeys(['uint16_t', '__u16', '__le16', '__be16'], 'u16'),
    **dict.fromkeys(['uint32_t', '__u32', '__le32', '__be32', 'uint', 'gfp_t'], 'u32'),
    **dict.fromkeys(['uint64_t', '__u64', '__le64', '__be64', 'size_t', 'sector_t', 'dma_addr_t', 'uintptr_t'], 'u64'),
    **dict.fromkeys(['int8_t', '__s8'], 's8'),
    **dict.fromkeys(['int16_t', '__s16'], 's16'),
    **dict.fromkeys(['int32_t', '__s32', 'pid_t'], 's32'),
    **dict.fromkeys(['int64_t', '__s64', 'ssize_t', 'loff_t'], 's64'),
    **dict.fromkeys(['spinlock_t', 'raw_spinlock_t', 'mutex', 'rwlock_t'], 'combolock_t, the one kind of lock'),
    'irqreturn_t': 'void: a handler is void f(void)',
    **dict.fromkeys(['IRQ_HANDLED', 'IRQ_NONE'], 'nothing: a handler is void f(void)'),
    **dict.fromkeys(['spin_lock', 'spin_lock_irq', 'spin_lock_irqsave', 'spin_lock_bh', 'mutex_lock', 'mutex_lock_interruptible'], 'combolock(&lock)'),
    **dict.fromkeys(['spin_unlock', 'spin_unlock_irq', 'spin_unlock_irqrestore', 'spin_unlock_bh', 'mutex_unlock'], 'combounlock(&lock)'),
    **dict.fromkeys(['spin_lock_init', 'mutex_init', 'DEFINE_SPINLOCK', 'DEFINE_MUTEX'], 'nothing: a combolock_t is free at first'),
    **dict.fromkeys(['kmalloc', 'kvmalloc', 'vmalloc', 'vzalloc', 'kvzalloc', 'devm_kzalloc', 'devm_kmalloc', 'malloc'], 'kzalloc(T) or kcalloc(n, T)'),
    **dict.fromkeys(['kmalloc_array', 'devm_kcalloc', 'calloc'], 'kcalloc(n, T)'),
    **dict.fromkeys(['vfree', 'kvfree', 'devm_kfree', 'free'], 'kfree(p)'),
    **dict.fromkeys(['GFP_KERNEL', 'GFP_ATOMIC'], 'nothing: an allocation takes the type alone, kzalloc(T)'),
    **dict.fromkeys(['ioread8', 'ioread16', 'ioread32', 'readb', 'readw', 'readq', 'inb', 'inw', 'inl'], 'readl(REG)'),
    **dict.fromkeys(['iowrite8', 'iowrite16', 'iowrite32', 'writeb', 'writew', 'writeq', 'outb', 'outw', 'outl'], 'writel(VALUE, REG)'),
    **dict.fromkeys(['pr_err', 'pr_warn', 'pr_info', 'pr_debug', 'pr_notice', 'pr_emerg', 'pr_crit', 'dev_err', 'dev_warn', 'dev_info', 'dev_dbg', 'printf'],
                    'printk("..", ..)'),
    **dict.fromkeys(['KERN_EMERG', 'KERN_ALERT', 'KERN_CRIT', 'KERN_CONT'], 'KERN_ERR, KERN_WARNING, KERN_NOTICE, KERN_INFO or KERN_DEBUG, right before a text'),
    **dict.fromkeys(['IRQF_SHARED', 'IRQF_ONESHOT', 'IRQF_TRIGGER_RISING', 'IRQF_TRIGGER_FALLING'], 'nothing: request_irq(f) takes the handler alone'),
    **dict.fromkeys(['devm_request_irq', 'request_threaded_irq'], 'request_irq(f)'),
    **dict.fromkeys(['work_struct', 'tasklet_struct', 'INIT_WORK', 'schedule_work', 'queue_work', 'tasklet_schedule'],
                    'a function that the layer above calls, and that calls user code back by kcall(f, a)'),
    **dict.fromkeys(['memset', 'memcpy', 'memmove', 'strcpy', 'strncpy', 'strscpy'], 'a loop over the elements'),
    **dict.fromkeys(['strlen', 'strcmp', 'strncmp', 'memcmp'], 'a loop over the bytes, with the pointer __nullterm'),
    **dict.fromkeys(['container_of', 'list_entry'], 'a pointer that the struct keeps itself'),
    **dict.fromkeys(['list_head', 'list_add', 'list_add_tail', 'list_del', 'list_for_each_entry', 'INIT_LIST_HEAD', 'LIST_HEAD'],
                    'a field struct NAME *next; and a loop'),
    **dict.fromkeys(['BIT', 'GENMASK'], 'the number itself'),
    **dict.fromkeys(['min', 'max', 'min_t', 'max_t'], 'an if'),
    **dict.fromkeys(['BUG_ON', 'WARN_ON', 'assert'], 'if (..) BUG();'),
    **dict.fromkeys(['copy_to_user', 'put_user'], 'deliver(p, n)'),
    **dict.fromkeys(['udelay', 'mdelay', 'msleep', 'ndelay', 'usleep_range'], 'nothing: the script lets time pass by idle N'),
    'true': '1', 'false': '0',
    'INT_MAX': '2147483647', 'INT_MIN': '(-2147483647 - 1)', 'UINT_MAX': '4294967295u', 'U8_MAX': '255', 'U16_MAX': '65535', 'U32_MAX': '4294967295u',
}
