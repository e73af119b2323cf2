//! Programs that must not compile, each with the error that it must give, and programs that must compile. The library
//! is compiled once, without a link. Each row is then compiled with it, as a function after `HEAD` that begins with
//! `START`.
use std::io::Write;
use std::process::{Command, Stdio};
use std::thread;

const HEAD: &str = "
#![allow(unused, dropping_references, forgetting_references)]
#![deny(unused_must_use, unsafe_code)]
use std::{cell::Cell, panic::catch_unwind, rc::Rc, sync::atomic::AtomicU32, sync::MutexGuard, thread};
use zaulinte::*;
conditions! { enum When { Ever } }
conditions! { enum Mesa { Other } }
type Guard<'a, T> = Inside<'a, T, When, Mesa>;
type Seat<T> = Place<T, When, Mesa>;
type Of<T> = Monitor<T, When, Mesa>;
fn is_send<X: Send>() {}
fn is_sync<X: Sync>() {}
macro_rules! port { () => {
    fn sleep_while(&self, _: &AtomicU32, _: u32) {}
    fn wake_one(&self, _: &AtomicU32) {}
} }
";
const START: &str = "let (m, mut p) = Of::<u32>::new(0, 2).unwrap();";

// Each row has the code of an error, or the first word of an error without a code; or `fine`, if it must compile. Then
// its name and its statements.
const ROWS: &str = "
E0277 a_guard_is_sent: is_send::<Guard<'static, u32>>();
E0277 a_mutable_guard_is_sent: is_send::<&mut Guard<'static, u32>>();
E0277 a_guard_of_a_cell_is_shared: is_sync::<Guard<'static, Cell<u32>>>();
E0277 a_place_of_an_rc_is_sent: is_send::<Seat<Rc<u32>>>();
E0277 a_place_of_an_rc_is_shared: is_sync::<Seat<Rc<u32>>>();
E0277 a_monitor_of_an_rc_is_sent: is_send::<Of<Rc<u32>>>();
E0277 a_monitor_of_an_rc_is_shared: is_sync::<Of<Rc<u32>>>();
E0599 a_monitor_of_an_rc_is_made: let _ = Of::<Rc<u32>>::new(Rc::new(0), 1);
E0277 a_monitor_of_an_rc_is_made_by_a_port: let _ = Of::with_port(Rc::new(0), 1, Checks::default(), StdPort::default);
E0599 a_place_of_an_rc_enters: fn f(p: &mut Seat<Rc<u32>>) { let _ = p.enter(); }
E0200 a_port_without_its_duty: struct Q; impl Port for Q { port!(); }
E0277 a_port_is_not_shared: struct Q(Cell<u32>); #[allow(unsafe_code)] unsafe impl Port for Q { port!(); }
E0277 a_port_is_not_sent: struct Q(MutexGuard<'static, ()>); #[allow(unsafe_code)] unsafe impl Port for Q { port!(); }
E0502 data_are_kept_over_a_wait: let mut i = p[0].enter().unwrap(); let r = &*i; let _ = i.wait(When::Ever, 0); drop(r);
E0499 data_are_kept_over_a_signal: let mut i = p[0].enter().unwrap(); let r = &mut *i; _ = i.signal(When::Ever); *r = 1;
E0499 data_are_kept_over_a_question: let mut i = p[0].enter().unwrap(); let r = &mut *i; i.queue(When::Ever); *r = 1;
E0597 data_outlive_the_guard: let r = { let i = p[0].enter().unwrap(); &*i }; drop(r);
E0505 data_are_kept_over_a_leave: let i = p[0].enter().unwrap(); let r = &*i; drop(i); drop(r);
E0505 data_are_kept_over_a_last_signal: let i = p[0].enter().unwrap(); let r = &*i; i.signal_leave(When::Ever); drop(r);
E0382 a_guard_is_used_after_its_last_signal: let mut i = p[0].enter().unwrap(); i.signal_leave(When::Ever); *i = 1;
E0505 a_place_is_dropped_inside: let mut a = p.pop().unwrap(); let i = a.enter().unwrap(); drop(a); drop(i);
E0505 a_place_is_moved_inside: let mut a = p.pop().unwrap(); let i = a.enter().unwrap(); thread::spawn(|| a); drop(i);
E0499 two_guards_of_a_place: let a = p[0].enter().unwrap(); let b = p[0].try_enter(); drop(a);
E0599 a_place_is_cloned: let a = p[0].clone();
E0599 a_monitor_is_cloned: let a = m.clone();
E0308 a_guard_is_cloned: let a = p[0].enter().unwrap(); let b: Guard<'_, u32> = a.clone();
E0451 a_guard_is_made: let i = Guard { place: &mut p[0], panicked: false, stays: std::marker::PhantomData };
E0616 what_is_shared_is_reached: let i = &m.0;
E0616 a_place_is_set_outside: p[0].is_inside = false;
E0616 a_door_s_place_is_reached: let s = &mut p[0].seat;
lifetime a_place_is_covariant: fn f<'a>(p: Seat<&'static str>) -> Seat<&'a str> { p }
lifetime a_guard_is_covariant: fn f<'b, 'a>(p: Guard<'b, &'static str>) -> Guard<'b, &'a str> { p }
lifetime a_monitor_is_covariant: fn f<'a>(m: Of<&'static str>) -> Of<&'a str> { m }
E0597 short_data_escape: let x = 1; let (m, p) = Of::new(&x, 1).unwrap(); thread::spawn(|| p);
E0597 data_die_before_their_monitor: let (m, p); let x = String::new(); (m, p) = Of::<&String>::new(&x, 1).unwrap();
E0277 a_group_of_an_rc_is_shared: is_sync::<Places<Rc<u32>, When, Mesa>>();
E0277 a_borrowed_place_of_an_rc_is_sent: is_send::<Borrowed<'static, Rc<u32>, When, Mesa>>();
E0277 a_borrowed_place_of_an_rc_is_shared: is_sync::<Borrowed<'static, Rc<u32>, When, Mesa>>();
E0505 a_group_ends_while_a_place_is_borrowed: let g = Places::new(p).unwrap(); \
    let b = g.borrow(); g.into_inner(); drop(b);
E0505 a_borrowed_place_is_given_back_inside: let g = Places::new(p).unwrap(); let mut b = g.borrow(); \
    let i = b.enter().unwrap(); drop(b); drop(i);
E0499 two_guards_of_a_borrowed_place: let g = Places::new(p).unwrap(); let mut b = g.borrow(); \
    let i = b.enter().unwrap(); let j = b.try_enter(); drop(i);
E0507 a_borrowed_place_is_kept: let g = Places::new(p).unwrap(); let b = g.borrow(); let a: Seat<u32> = *b;
lifetime a_group_is_covariant: fn f<'a>(g: Places<&'static str, When>) -> Places<&'a str, When> { g }
lifetime a_borrowed_place_is_covariant: \
    fn f<'b, 'a>(p: Borrowed<'b, &'static str, When>) -> Borrowed<'b, &'a str, When> { p }
E0277 a_guard_goes_to_a_scoped_thread: let mut i = p[0].enter().unwrap(); thread::scope(|s| { s.spawn(|| *i = 1); });
E0277 a_cell_s_guard_is_shared: let (m, mut p) = Of::new(Cell::new(0), 1).unwrap(); let i = p[0].enter().unwrap(); \
    thread::scope(|s| { s.spawn(|| i.set(1)); });
E0308 a_wait_on_another_enum: conditions! { enum A { B } } let mut i = p[0].enter().unwrap(); let _ = i.wait(A::B, 0);
E0308 a_wait_in_a_monitor_for_data_alone: let (_, mut p) = Monitor::<u32>::new(0, 1).unwrap(); \
    let mut i = p[0].enter().unwrap(); let _ = i.wait(When::Ever, 0);
E0308 a_signal_on_a_mesa_condition: let mut i = p[0].enter().unwrap(); let _ = i.signal(Mesa::Other);
E0308 a_signal_to_a_place_on_a_mesa_condition: let mut i = p[0].enter().unwrap(); let _ = i.signal_to(Mesa::Other, 1);
E0308 a_place_and_a_condition_are_exchanged: let mut i = p[0].enter().unwrap(); let _ = i.signal_to(1, When::Ever);
E0499 data_are_kept_over_a_signal_to_a_place: let mut i = p[0].enter().unwrap(); let r = &mut *i; \
    _ = i.signal_to(When::Ever, 1); *r = 1;
E0308 a_notify_on_a_hoare_condition: let mut i = p[0].enter().unwrap(); i.notify(When::Ever);
E0308 a_check_captures: let k = 3; let c = Checks::<u32, When> { inv: |d| *d < k, ..Checks::default() };
no a_condition_has_a_number: conditions! { enum Bad { A = 5 } }
E0596 a_shared_place_enters: fn f(p: &Seat<u32>) { let _ = p.enter(); }
E0382 a_monitor_is_used_after_its_end: let data = m.into_inner(); m.is_poisoned();
unused a_guard_is_unused: p[0].enter().unwrap();
unused a_borrowed_place_is_unused: let g = Places::new(p).unwrap(); g.borrow();
unused an_attempt_is_unused: p[0].try_enter();
unused a_poisoned_wait_is_unused: let mut i = p[0].enter().unwrap(); i.wait(When::Ever, 0);
fine a_guard_is_shared: let i = p[0].enter().unwrap(); thread::scope(|s| { s.spawn(|| *i + 1); });
fine a_group_is_shared: is_send::<Places<Cell<u32>, When>>(); is_sync::<Places<Cell<u32>, When>>(); \
    let g = Places::new(p).unwrap(); thread::scope(|s| { s.spawn(|| *g.borrow().enter().unwrap() += 1); });
fine a_borrowed_place_moves_and_is_shared: is_send::<Borrowed<'static, Cell<u32>, When>>(); \
    is_sync::<Borrowed<'static, Cell<u32>, When>>();
fine a_group_unwinds: let g = Places::new(p).unwrap(); let b = g.borrow(); let _ = catch_unwind(|| drop(g.borrow())); \
    let _ = catch_unwind(move || drop(b));
fine borrowed_data: let mut x = 1; let (m, mut p) = Of::new(&mut x, 1).unwrap(); \
    thread::scope(|s| { s.spawn(|| **p[0].enter().unwrap() += 1); });
fine data_that_are_not_shared: let (m, mut p) = Of::new(Cell::new(0), 1).unwrap(); \
    thread::spawn(move || p[0].enter().unwrap().set(2));
fine checks_without_mesa_conditions: fn rest(_: &u32, all: &Waiting<When>) -> bool { all.count(When::Ever) == 0 } \
    let checks: Checks<u32, When> = Checks { rest, ..Checks::default() };
fine a_place_unwinds: let _ = catch_unwind(move || drop(p[0].enter().unwrap())); m.is_poisoned();
fine a_guard_unwinds: let i = p[0].enter().unwrap(); let _ = catch_unwind(|| *i); let _ = catch_unwind(move || drop(i));
";

// Returns the compiler, which makes the metadata of a library alone.
fn rustc(name: &str) -> Command {
    let mut rustc = Command::new(std::env::var_os("RUSTC").unwrap_or("rustc".into()));
    rustc.args(["--edition=2021", "--crate-type=lib", "--emit=metadata", "--error-format=short"]);
    rustc.args(["--out-dir", env!("CARGO_TARGET_TMPDIR"), "--crate-name", name]);
    rustc
}

// Returns what the compiler said of a row, if that isn't what the row wants.
fn fault(row: &&str) -> Option<String> {
    let (wanted, program) = row.split_once(' ').unwrap();
    let (name, body) = program.split_once(": ").unwrap();
    let library = concat!("zaulinte=", env!("CARGO_TARGET_TMPDIR"), "/libzaulinte.rmeta");
    let mut compiles = rustc(name);
    compiles.args(["--extern", library, "-"]).stdin(Stdio::piped()).stderr(Stdio::piped());
    let mut child = compiles.spawn().unwrap();
    write!(child.stdin.take().unwrap(), "{HEAD} pub fn row() {{ {START} {body} }}").unwrap();
    let output = child.wait_with_output().unwrap();
    let said = String::from_utf8(output.stderr).unwrap();
    let errors: Vec<_> = said.lines().filter_map(|line| Some(line.split_once(": error")?.1)).collect();
    let is_wanted = |error: &&str| error.trim_start_matches(['[', ':', ' ']).starts_with(wanted);
    let is_right = match wanted {
        "fine" => output.status.success(),
        _ => !errors.is_empty() && errors.iter().all(is_wanted),
    };
    (!is_right).then(|| format!("{name}: {wanted} is wanted, and rustc says: {said}\n"))
}

#[test]
fn each_row_compiles_or_gives_its_error() {
    let mut library = rustc("zaulinte");
    library.args(["--cfg", "feature=\"std\"", concat!(env!("CARGO_MANIFEST_DIR"), "/rust/src/lib.rs")]);
    assert!(library.status().unwrap().success());
    let rows: Vec<&str> = ROWS.trim().lines().collect();
    let faults_of = |part: &[&str]| part.iter().filter_map(fault).collect::<Vec<_>>();
    let faults: Vec<String> = thread::scope(|s| {
        let threads: Vec<_> =
            rows.chunks(rows.len().div_ceil(4)).map(|part| s.spawn(move || faults_of(part))).collect();
        threads.into_iter().flat_map(|thread| thread.join().unwrap()).collect()
    });
    assert!(faults.is_empty(), "{}", faults.concat());
}
