// SPDX-License-Identifier: GPL-2.0
/*
 * Registers hotplug states whose callbacks fail by the rules of an hp script, for the guest of kernel/play.
 *
 * A command is one write to /proc/hp_guest, and a read of the same open file gives what it answered: a number, below 0 an
 * error's. A callback is known by its slot, which is the place of its setup among the script's setups.
 *
 *   rule SLOT DIR CPU INST NTH CODE     a rule of the slot's callbacks, as a script has it; -1 stands for *
 *   setup SLOT STATE CALLS KIND FORM    FORM is calls, nocalls, locked or locked-nocalls
 *   remove STATE FORM
 *   add STATE INST FORM
 *   del STATE INST FORM
 *   lock, unlock, disable, enable, wakeup
 *   hold SLOT DIR CPU INST NTH          the NTH such call from now on stops within the callback
 *   held                                waits until it does: 0, or -110 after ten seconds
 *   release                             lets it go on
 *   meanwhile N COMMAND                 a kernel thread, which no suspend freezes, waits until a call is held, gives COMMAND to
 *                                       a second one, and lets the call go on once that is asleep or done; it writes
 *                                       "hp_guest: meanwhile N waits" or "done" into the trace
 *   joined                              waits until both are done: what COMMAND answered
 *   clear                               takes out all instances, states and rules, and calls nothing
 *
 * Each call of a callback, also within STARTING, where no tracepoint speaks, writes "hp_guest: SLOT DIR CPU INST RESULT" into
 * the trace.
 */
#include <linux/completion.h>
#include <linux/cpu.h>
#include <linux/cpuhotplug.h>
#include <linux/delay.h>
#include <linux/kthread.h>
#include <linux/module.h>
#include <linux/proc_fs.h>
#include <linux/sched.h>
#include <linux/slab.h>
#include <linux/suspend.h>
#include <linux/uaccess.h>

#define SLOTS 40
#define RULES 8
#define STATES 256
#define LINE 128

struct rule {
	int up, cpu, inst, nth, code, matched;
};

struct instance {
	struct hlist_node node;
	struct instance *next;
	int slot, number;
};

struct slot {
	struct rule rules[RULES];
	int count;
	char name[16];
};

struct answered {
	int number;
};

struct aside {
	char line[LINE];
	int number, answer;
	struct completion done;
};

static struct slot slots[SLOTS];
/* Whether a state is set up, by its number. */
static bool stands[STATES];
static struct instance *instances[STATES];

/* The call that is to be held: whether one is to be, which, and how often such a call still passes. */
static int hold_on, hold_slot, hold_up, hold_cpu, hold_inst, hold_nth;
static DECLARE_COMPLETION(held);
static DECLARE_COMPLETION(released);
static struct aside first_aside, second_aside;

static int called(int s, bool up, unsigned int cpu, int inst)
{
	struct slot *slot = &slots[s];
	int i, code = 0;

	if (hold_on && s == hold_slot && up == hold_up && cpu == hold_cpu && inst == hold_inst && !--hold_nth) {
		hold_on = 0;
		complete(&held);
		wait_for_completion(&released);
	}
	for (i = 0; i < slot->count; i++) {
		struct rule *rule = &slot->rules[i];

		if (rule->up != up || (rule->cpu >= 0 && rule->cpu != cpu) || (rule->inst >= 0 && rule->inst != inst))
			continue;
		rule->matched++;
		if (!code && (rule->nth < 0 || rule->nth == rule->matched))
			code = rule->code;
	}
	trace_printk("hp_guest: %d %s %u %d %d\n", s, up ? "up" : "down", cpu, inst, -code);
	return -code;
}

static int number_of(struct hlist_node *node)
{
	return container_of(node, struct instance, node)->number;
}

/* A callback is told its processor, and its instance, but not its state: so each slot has four of its own. */
#define CALLBACKS(n) \
	static int up_##n(unsigned int cpu) { return called(n, true, cpu, 0); } \
	static int down_##n(unsigned int cpu) { return called(n, false, cpu, 0); } \
	static int up_each_##n(unsigned int cpu, struct hlist_node *node) { return called(n, true, cpu, number_of(node)); } \
	static int down_each_##n(unsigned int cpu, struct hlist_node *node) { return called(n, false, cpu, number_of(node)); }
#define UP(n) up_##n,
#define DOWN(n) down_##n,
#define UP_EACH(n) (void *)up_each_##n,
#define DOWN_EACH(n) (void *)down_each_##n,
#define TEN(M, t) M(t##0) M(t##1) M(t##2) M(t##3) M(t##4) M(t##5) M(t##6) M(t##7) M(t##8) M(t##9)
#define ALL(M) M(0) M(1) M(2) M(3) M(4) M(5) M(6) M(7) M(8) M(9) TEN(M, 1) TEN(M, 2) TEN(M, 3)

ALL(CALLBACKS)
static int (*const ups[SLOTS])(unsigned int) = { ALL(UP) };
static int (*const downs[SLOTS])(unsigned int) = { ALL(DOWN) };
static int (*const ups_each[SLOTS])(unsigned int) = { ALL(UP_EACH) };
static int (*const downs_each[SLOTS])(unsigned int) = { ALL(DOWN_EACH) };

static int setup(int s, int state, const char *calls, const char *kind, const char *form)
{
	bool up = !strcmp(calls, "both") || !strcmp(calls, "up");
	bool down = !strcmp(calls, "both") || !strcmp(calls, "down");
	bool multi = !strcmp(kind, "multi");
	bool invoke = !multi && !strstr(form, "nocalls");
	int (*startup)(unsigned int) = up ? (multi ? ups_each[s] : ups[s]) : NULL;
	int (*teardown)(unsigned int) = down ? (multi ? downs_each[s] : downs[s]) : NULL;
	int ret, i;

	snprintf(slots[s].name, sizeof(slots[s].name), "hp:%d", s);
	for (i = 0; i < slots[s].count; i++)
		slots[s].rules[i].matched = 0;
	if (strstr(form, "locked"))
		ret = __cpuhp_setup_state_cpuslocked(state, slots[s].name, invoke, startup, teardown, multi);
	else
		ret = __cpuhp_setup_state(state, slots[s].name, invoke, startup, teardown, multi);
	if (ret >= 0)
		stands[ret > 0 ? ret : state] = true;
	return ret;
}

static int add(int state, int number, bool invoke)
{
	struct instance *one = kzalloc(sizeof(*one), GFP_KERNEL);
	int ret;

	if (!one)
		return -ENOMEM;
	one->number = number;
	ret = __cpuhp_state_add_instance(state, &one->node, invoke);
	if (ret) {
		kfree(one);
		return ret;
	}
	one->next = instances[state];
	instances[state] = one;
	return 0;
}

static int del(int state, int number, bool invoke)
{
	struct instance **at = &instances[state], *one;
	int ret;

	while (*at && (*at)->number != number)
		at = &(*at)->next;
	one = *at;
	if (!one)
		return -ENOENT;
	ret = __cpuhp_state_remove_instance(state, &one->node, invoke);
	if (!ret) {
		*at = one->next;
		kfree(one);
	}
	return ret;
}

static int clear(void)
{
	int state, slot;

	for (state = 0; state < STATES; state++) {
		/* Those of a state that was removed with instances left can't be taken out any more. */
		while (instances[state] && !del(state, instances[state]->number, false))
			;
		instances[state] = NULL;
		if (stands[state])
			__cpuhp_remove_state(state, false);
		stands[state] = false;
	}
	for (slot = 0; slot < SLOTS; slot++)
		slots[slot].count = 0;
	hold_on = 0;
	return 0;
}

static int run(char *line);

static int run_second(void *unused)
{
	second_aside.answer = run(second_aside.line);
	complete(&second_aside.done);
	return 0;
}

/* Whether a thread has slept for a while: what it asked for waits. */
static bool sleeps(struct task_struct *task)
{
	int i;

	for (i = 0; i < 20; i++) {
		msleep(20);
		if (!(READ_ONCE(task->__state) & TASK_UNINTERRUPTIBLE))
			return false;
	}
	return true;
}

static int run_first(void *unused)
{
	struct task_struct *second;

	wait_for_completion(&held);
	second = kthread_create(run_second, NULL, "hp_guest/second");
	get_task_struct(second);
	wake_up_process(second);
	while (!completion_done(&second_aside.done) && !sleeps(second))
		;
	trace_printk("hp_guest: meanwhile %d %s\n", second_aside.number, completion_done(&second_aside.done) ? "done" : "waits");
	put_task_struct(second);
	complete(&released);
	complete(&first_aside.done);
	return 0;
}

static int meanwhile(const char *line)
{
	int skip = 0;

	if (sscanf(line, "%d %n", &second_aside.number, &skip) != 1)
		return -EINVAL;
	reinit_completion(&held);
	reinit_completion(&released);
	init_completion(&first_aside.done);
	init_completion(&second_aside.done);
	strscpy(second_aside.line, line + skip, LINE);
	return PTR_ERR_OR_ZERO(kthread_run(run_first, NULL, "hp_guest/first"));
}

static int run_words(int n, char **w)
{
	int v[7] = {}, i;
	const char *form = n > 1 ? w[n - 1] : "";

	for (i = 1; i < n && i < 7; i++)
		if (kstrtoint(w[i], 10, &v[i]))
			v[i] = 0;
	if (!strcmp(w[0], "lock")) {
		cpus_read_lock();
	} else if (!strcmp(w[0], "unlock")) {
		cpus_read_unlock();
	} else if (!strcmp(w[0], "disable")) {
		cpu_hotplug_disable();
	} else if (!strcmp(w[0], "enable")) {
		cpu_hotplug_enable();
	} else if (!strcmp(w[0], "clear")) {
		return clear();
	} else if (!strcmp(w[0], "wakeup")) {
		pm_system_wakeup();
	} else if (!strcmp(w[0], "held")) {
		return wait_for_completion_timeout(&held, 10 * HZ) ? 0 : -ETIMEDOUT;
	} else if (!strcmp(w[0], "release")) {
		complete(&released);
	} else if (!strcmp(w[0], "joined")) {
		wait_for_completion(&first_aside.done);
		wait_for_completion(&second_aside.done);
		return second_aside.answer;
	} else if (!strcmp(w[0], "hold") && n == 6) {
		reinit_completion(&held);
		reinit_completion(&released);
		hold_slot = v[1];
		hold_up = !strcmp(w[2], "up");
		hold_cpu = v[3];
		hold_inst = v[4];
		hold_nth = v[5];
		hold_on = 1;
	} else if (!strcmp(w[0], "rule") && n == 7 && v[1] >= 0 && v[1] < SLOTS && slots[v[1]].count < RULES) {
		slots[v[1]].rules[slots[v[1]].count++] = (struct rule){ !strcmp(w[2], "up"), v[3], v[4], v[5], v[6] };
	} else if (!strcmp(w[0], "setup") && n == 6 && v[1] >= 0 && v[1] < SLOTS) {
		return setup(v[1], v[2], w[3], w[4], form);
	} else if (!strcmp(w[0], "remove") && n == 3 && v[1] >= 0 && v[1] < STATES) {
		if (strstr(form, "locked"))
			__cpuhp_remove_state_cpuslocked(v[1], !strstr(form, "nocalls"));
		else
			__cpuhp_remove_state(v[1], !strstr(form, "nocalls"));
		stands[v[1]] = false;
	} else if (!strcmp(w[0], "add") && n == 4 && v[1] >= 0 && v[1] < STATES) {
		return add(v[1], v[2], !strstr(form, "nocalls"));
	} else if (!strcmp(w[0], "del") && n == 4 && v[1] >= 0 && v[1] < STATES) {
		return del(v[1], v[2], !strstr(form, "nocalls"));
	} else {
		return -EINVAL;
	}
	return 0;
}

static int run(char *line)
{
	char *w[8];
	int n = 0;

	line = strim(line);
	if (!strncmp(line, "meanwhile ", 10))
		return meanwhile(line + 10);
	while (n < 8 && (w[n] = strsep(&line, " ")))
		n++;
	return n ? run_words(n, w) : -EINVAL;
}

static int hp_open(struct inode *inode, struct file *file)
{
	file->private_data = kzalloc(sizeof(struct answered), GFP_KERNEL);
	return file->private_data ? 0 : -ENOMEM;
}

static int hp_release(struct inode *inode, struct file *file)
{
	kfree(file->private_data);
	return 0;
}

static ssize_t hp_write(struct file *file, const char __user *text, size_t size, loff_t *at)
{
	struct answered *answered = file->private_data;
	char line[LINE];

	if (size >= LINE)
		return -EINVAL;
	if (copy_from_user(line, text, size))
		return -EFAULT;
	line[size] = 0;
	answered->number = run(line);
	return size;
}

static ssize_t hp_read(struct file *file, char __user *text, size_t size, loff_t *at)
{
	struct answered *answered = file->private_data;
	char line[16];
	loff_t from = 0;

	snprintf(line, sizeof(line), "%d\n", answered->number);
	return simple_read_from_buffer(text, size, &from, line, strlen(line));
}

static const struct proc_ops hp_ops = {
	.proc_open = hp_open,
	.proc_release = hp_release,
	.proc_write = hp_write,
	.proc_read = hp_read,
};

static int __init hp_init(void)
{
	return proc_create("hp_guest", 0600, NULL, &hp_ops) ? 0 : -ENOMEM;
}

module_init(hp_init);
MODULE_LICENSE("GPL");
