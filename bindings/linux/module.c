/* The module zaulinte.ko: the proved steps, the running monitor and its port, for other modules. NOT PROVED. */
#include <linux/cpumask.h>
#include <linux/module.h>
#include "module.h"
#include "zaulinte_monitor.h"

MODULE_LICENSE("Dual MIT/GPL");
MODULE_DESCRIPTION("Hoare's monitors, on proved steps");

int zaulinte_polls = -1;
module_param_named(polls, zaulinte_polls, int, 0444);
MODULE_PARM_DESC(polls, "spin hints before a thread sleeps; -1: 500, and 0 on a single core");

static int __init zaulinte_begin(void) {
    if (zaulinte_polls < 0) zaulinte_polls = num_online_cpus() > 1 ? 500 : 0;
    return 0;
}
static void __exit zaulinte_end(void) { WARN(atomic_long_read(&zaulinte_kept), "zaulinte: a monitor isn't freed\n"); }
module_init(zaulinte_begin);
module_exit(zaulinte_end);

EXPORT_SYMBOL(ZAULINTE_BUILD);
EXPORT_SYMBOL(zaulinte_make);
EXPORT_SYMBOL(zaulinte_free);
EXPORT_SYMBOL(zaulinte_enter);
EXPORT_SYMBOL(zaulinte_try_enter);
EXPORT_SYMBOL(zaulinte_leave);
EXPORT_SYMBOL(zaulinte_wait);
EXPORT_SYMBOL(zaulinte_signal);
EXPORT_SYMBOL(zaulinte_signal_to);
EXPORT_SYMBOL(zaulinte_signal_leave);
EXPORT_SYMBOL(zaulinte_notify);
EXPORT_SYMBOL(zaulinte_broadcast);
EXPORT_SYMBOL(zaulinte_queue);
EXPORT_SYMBOL(zaulinte_first);
EXPORT_SYMBOL(zaulinte_count);
EXPORT_SYMBOL(zaulinte_group_make);
EXPORT_SYMBOL(zaulinte_group_free);
EXPORT_SYMBOL(zaulinte_borrow);
EXPORT_SYMBOL(zaulinte_try_borrow);
EXPORT_SYMBOL(zaulinte_give_back);
EXPORT_SYMBOL(zaulinte_check);
EXPORT_SYMBOL(zaulinte_name);
EXPORT_SYMBOL(zaulinte_head_make);
EXPORT_SYMBOL(zaulinte_head_sweep);
EXPORT_SYMBOL(zaulinte_head_ask);
EXPORT_SYMBOL(zaulinte_head_grant);
EXPORT_SYMBOL(zaulinte_head_give_back);
