"""Faults that are planted in the drivers of examples/, to be found. Each is a driver, what is written in it, and what
stands there in the planted variant."""

# A race: what the interrupt's handler uses is freed while it may still come.
RACE = ('block.c', """	free_irq();
	for (r = queue->first; r; r = next) {
		next = r->next;
		kfree(r);
	}
	kfree(queue->active);
	kfree(queue);
	queue = NULL;
""", """	for (r = queue->first; r; r = next) {
		next = r->next;
		kfree(r);
	}
	kfree(queue->active);
	kfree(queue);
	queue = NULL;
	free_irq();
""")
RACE_TEST = """driver block.c
sweep set STATUS DONE, raise
setup
    reg CAPACITY 1000
    on write STATUS do lower
    call blk_probe
case it goes while a request is done
    call blk_submit READ 10 1
    call blk_remove
    expect queue null
"""

# A leak: the sensor itself stays where there is no memory for its samples.
LEAK = ('temperature.c', """	if (!s->samples) {
		kfree(s);
		return -ENOMEM;
	}
""", """	if (!s->samples)
		return -ENOMEM;
""")
LEAK_TEST = """driver temperature.c
case a sensor comes and goes
    call lm75_probe 0x48 2
    call lm75_remove
    expect sensor null
"""

# A lock that is held where the kernel half calls back.
HELD = ('adc.c', """		combounlock(&adc.lock);
		err = kcall(adc.take, value);
""", """		err = kcall(adc.take, value);
		combounlock(&adc.lock);
""")
HELD_TEST = """driver adc.c
setup
    on write STATUS do put STATUS 0, lower
    call adc_open
case values are summed up
    now set STATUS READY, put VALUE 400, raise
    call adc_poll
    expect result.values 1 400
"""


def plant(folder, examples, fault):
    """Writes a driver with a fault planted in it into a folder."""
    name, text, planted = fault
    source = (examples / name).read_text()
    if source.count(text) != 1:
        raise ValueError(f'{name}: the place for the fault is gone')
    (folder / name).write_text(source.replace(text, planted))
