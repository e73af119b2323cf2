/* The device /dev/zbuf: Hoare's bounded buffer, of records. A write appends a record, and waits while the buffer is
 * full; a read removes one, and waits while it is empty. These waits are in a monitor of Zaulinte, and the waiters of a
 * condition resume in the order in which they came.
 *
 * No signal to a process ends its wait: another thread has to resume it. While places wait, the work `releases` enters
 * each `period_ms`, by a place of its own, and resumes each waiter whose thread has a signal pending, whichever waits
 * first (`zaulinte_signal_to`). Before that it writes to the data why. The call of that waiter then returns, and the
 * other waiters keep their order. So a killed reader is gone within that time. The same is true of one that is stopped
 * or frozen, which then begins its call anew.
 *
 * A thread borrows a place for a visit. A waiter keeps its place, so readers and writers have groups of their own: else
 * readers that wait could have all places, and no writer gets one. User memory is copied outside: a page that comes
 * late delays no other visit. */
#include <linux/fs.h>
#include <linux/miscdevice.h>
#include <linux/module.h>
#include <linux/poll.h>
#include <linux/sched/signal.h>
#include <linux/slab.h>
#include <linux/uaccess.h>
#include <linux/wait.h>
#include <linux/workqueue.h>
#include "zaulinte_monitor.h"

MODULE_LICENSE("Dual MIT/GPL");
MODULE_DESCRIPTION("A bounded buffer as a device, by a monitor of Zaulinte");

static uint period_ms = 100, places = 64;
module_param(period_ms, uint, 0444);
MODULE_PARM_DESC(period_ms, "the time within which a wait ends if its thread has a signal");
module_param(places, uint, 0444);
MODULE_PARM_DESC(places, "of the monitor, 3 to 64: one for the work, the others for readers and writers");

enum { ROOM = 8, MOST = 4096 }; /* records, and the bytes of one */
enum { NONEMPTY, NONFULL, CONDITIONS };
enum { RELEASER, FIRST_READER }; /* places */
struct record {
    size_t bytes;
    char data[];
};
/* The thread that waits by a place, or NULL; and if it is resumed since it has a signal. */
struct waiter {
    struct task_struct *task;
    uint condition;
    bool is_released;
};
static struct {
    zaulinte_monitor m;
    /* from here on for the place inside alone */
    struct record *record[ROOM];
    uint first, count;
    uint shown; /* the count, but poll reads it too: it leaves out a record that a waiter takes next */
    struct waiter waiter[64];
    u64 appended, removed, released;
} buffer;
module_param_named(appended, buffer.appended, ullong, 0444);
module_param_named(removed, buffer.removed, ullong, 0444);
module_param_named(released, buffer.released, ullong, 0444);

/* A refusal of the monitor is a fault of this driver. */
#define CHECK(call) check((call), #call)
static void check(u64 code, const char *call) { WARN(code, "zbuf: %s: %s\n", call, zaulinte_text(code)); }

/* The places of the readers, or of the writers. A thread that finds none waits outside the monitor, on a wait queue of
 * the kernel's, so that a signal ends that wait: `zaulinte_borrow` would sleep until there is a place. */
struct pool {
    zaulinte_group places;
    wait_queue_head_t returned;
};
static struct pool readers, writers;
static int borrow(struct pool *p, bool may_wait, u32 *place) {
    if (!may_wait) return zaulinte_try_borrow(&p->places, place) ? -EAGAIN : 0;
    return wait_event_interruptible_exclusive(p->returned, !zaulinte_try_borrow(&p->places, place));
}
static void give_back(struct pool *p, u32 place) {
    CHECK(zaulinte_give_back(&p->places, place));
    wake_up(&p->returned);
}

/* The end of waits whose threads have a signal. */
static void release_waiters(struct work_struct *work);
static DECLARE_DELAYED_WORK(releases, release_waiters);
static void release_later(void) { queue_delayed_work(system_wq, &releases, msecs_to_jiffies(max(period_ms, 1u))); }
static void release(u32 place) {
    struct waiter *w = &buffer.waiter[place];
    bool resumed = false;
    w->is_released = true;
    buffer.released++;
    CHECK(zaulinte_signal_to(&buffer.m, RELEASER, w->condition, place, &resumed));
    WARN(!resumed, "zbuf: place %u doesn't wait\n", place);
}
static void release_waiters(struct work_struct *work) {
    bool more = false;
    CHECK(zaulinte_enter(&buffer.m, RELEASER));
    for (u32 place = FIRST_READER; place < places; place++) {
        struct task_struct *task = buffer.waiter[place].task;
        if (task && signal_pending(task)) release(place);
        else more |= task != NULL;
    }
    CHECK(zaulinte_leave(&buffer.m, RELEASER));
    if (more) release_later();
}

/* The place is inside, and the condition doesn't hold. Waits until another call has made it hold, and returns 0; or
 * returns an error, inside too. A thread that was killed takes nothing. */
static int wait_for(u32 place, uint condition, bool may_wait) {
    struct waiter *mine = &buffer.waiter[place];
    if (!may_wait) return -EAGAIN;
    if (signal_pending(current)) return -ERESTARTSYS;
    *mine = (struct waiter){current, condition, false};
    release_later();
    CHECK(zaulinte_wait(&buffer.m, place, condition, 0));
    mine->task = NULL;
    return mine->is_released || fatal_signal_pending(current) ? -ERESTARTSYS : 0;
}
/* What poll reports. */
static DECLARE_WAIT_QUEUE_HEAD(changed);
static const __poll_t events[CONDITIONS] = {EPOLLIN | EPOLLRDNORM, EPOLLOUT | EPOLLWRNORM};
/* The last act of a call: the condition holds, so the first waiter is resumed. If there is none, poll reports it. */
static void leave_with(u32 place, uint condition) {
    bool waits;
    CHECK(zaulinte_queue(&buffer.m, place, condition, &waits));
    if (!waits) {
        WRITE_ONCE(buffer.shown, buffer.count);
        wake_up_interruptible_poll(&changed, events[condition]);
    }
    CHECK(zaulinte_signal_leave(&buffer.m, place, condition, NULL));
}
/* The last act of a call that has an error. If the condition holds, another call has resumed this one, or it hasn't
 * waited: then the next waiter is resumed instead. */
static int leave_without(u32 place, uint condition, bool holds, int error) {
    if (holds) leave_with(place, condition);
    else CHECK(zaulinte_leave(&buffer.m, place));
    return error;
}
static int append(u32 place, struct record *new, bool may_wait) {
    int error = 0;
    CHECK(zaulinte_enter(&buffer.m, place));
    if (buffer.count == ROOM) error = wait_for(place, NONFULL, may_wait);
    if (error) return leave_without(place, NONFULL, buffer.count < ROOM, error);
    buffer.record[(buffer.first + buffer.count) % ROOM] = new;
    buffer.count++;
    buffer.appended++;
    leave_with(place, NONEMPTY);
    return 0;
}
static int take(u32 place, size_t room, struct record **to, bool may_wait) {
    int error = 0;
    CHECK(zaulinte_enter(&buffer.m, place));
    if (buffer.count == 0) error = wait_for(place, NONEMPTY, may_wait);
    if (!error && buffer.record[buffer.first]->bytes > room) error = -EMSGSIZE;
    if (error) return leave_without(place, NONEMPTY, buffer.count > 0, error);
    *to = buffer.record[buffer.first];
    buffer.first = (buffer.first + 1) % ROOM;
    buffer.count--;
    buffer.removed++;
    leave_with(place, NONFULL);
    return 0;
}

/* The calls of a process. */
static int append_by_any(struct record *new, bool may_wait) {
    u32 place;
    int error = borrow(&writers, may_wait, &place);
    if (error) return error;
    error = append(place, new, may_wait);
    give_back(&writers, place);
    return error;
}
static ssize_t zbuf_write(struct file *file, const char __user *from, size_t bytes, loff_t *at) {
    struct record *new;
    int error;
    if (!bytes) return 0;
    bytes = min_t(size_t, bytes, MOST);
    new = kmalloc(struct_size(new, data, bytes), GFP_KERNEL);
    if (!new) return -ENOMEM;
    new->bytes = bytes;
    error = copy_from_user(new->data, from, bytes) ? -EFAULT : append_by_any(new, !(file->f_flags & O_NONBLOCK));
    if (error) kfree(new);
    return error ? error : bytes;
}
static ssize_t zbuf_read(struct file *file, char __user *to, size_t bytes, loff_t *at) {
    bool may_wait = !(file->f_flags & O_NONBLOCK);
    struct record *got;
    ssize_t done;
    u32 place;
    int error = borrow(&readers, may_wait, &place);
    if (error) return error;
    error = take(place, bytes, &got, may_wait);
    give_back(&readers, place);
    if (error) return error;
    done = copy_to_user(to, got->data, got->bytes) ? -EFAULT : got->bytes; /* if so, the record is lost */
    kfree(got);
    return done;
}
static __poll_t zbuf_poll(struct file *file, poll_table *table) {
    uint count;
    poll_wait(file, &changed, table);
    count = READ_ONCE(buffer.shown);
    return (count > 0 ? events[NONEMPTY] : 0) | (count < ROOM ? events[NONFULL] : 0);
}
static int zbuf_open(struct inode *inode, struct file *file) { return stream_open(inode, file); }
static const struct file_operations operations = {
    .owner = THIS_MODULE, /* the module stays while a file is open, so no call is under way when it goes */
    .open = zbuf_open,
    .read = zbuf_read,
    .write = zbuf_write,
    .poll = zbuf_poll,
};
static struct miscdevice device = {.minor = MISC_DYNAMIC_MINOR, .name = "zbuf", .fops = &operations, .mode = 0666};

static void make_pool(struct pool *p, u32 first, u32 end) {
    init_waitqueue_head(&p->returned);
    CHECK(zaulinte_group_make(&p->places, &buffer.m, first, end - first));
}
static void end_monitor(void) {
    CHECK(zaulinte_group_free(&readers.places));
    CHECK(zaulinte_group_free(&writers.places));
    CHECK(zaulinte_free(&buffer.m));
}
static int __init zbuf_begin(void) {
    uint half = FIRST_READER + (places - FIRST_READER) / 2;
    u64 refused = half > FIRST_READER ? zaulinte_make(&buffer.m, places, CONDITIONS, 0) : ZAULINTE_BAD_PLACES;
    int error;
    if (refused) {
        pr_err("zbuf: %s\n", zaulinte_text(refused));
        return refused == ZAULINTE_NO_MEMORY ? -ENOMEM : -EINVAL;
    }
    make_pool(&readers, FIRST_READER, half);
    make_pool(&writers, half, places);
    error = misc_register(&device);
    if (error) end_monitor();
    return error;
}
static void __exit zbuf_end(void) {
    misc_deregister(&device);
    cancel_delayed_work_sync(&releases);
    end_monitor();
    for (; buffer.count; buffer.count--) {
        kfree(buffer.record[buffer.first]);
        buffer.first = (buffer.first + 1) % ROOM;
    }
}
module_init(zbuf_begin);
module_exit(zbuf_end);
