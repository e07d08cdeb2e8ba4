//! How much stack a call takes: the calls keep their tables there, and a caller's threads must have room for them.

use std::ffi::{c_int, c_void};
use std::ptr;

use evaluator::{Catalogue, Column, Condition, Question, Test, Tree, spelling};
use trials::Run;

/// The promise: less than this.
const PROMISED: usize = 256 * 1_024;
/// What the thread has, so that a call which takes more than promised is still measured.
const GIVEN: usize = 1_024 * 1_024;
const PAINT: u8 = 0xC3;

/// A `pthread_attr_t`, as large as on x86-64 Linux.
#[repr(C, align(8))]
struct Attributes([u8; 56]);

unsafe extern "C" {
    fn pthread_attr_init(attributes: *mut Attributes) -> c_int;
    fn pthread_attr_setstack(attributes: *mut Attributes, stack: *mut c_void, len: usize) -> c_int;
    fn pthread_create(
        thread: *mut usize,
        attributes: *const Attributes,
        start: extern "C" fn(*mut c_void) -> *mut c_void,
        argument: *mut c_void,
    ) -> c_int;
    fn pthread_join(thread: usize, result: *mut *mut c_void) -> c_int;
}

/// The bytes of stack that are touched while a thread does this.
fn stack_taken(work: extern "C" fn(*mut c_void) -> *mut c_void, argument: *mut c_void) -> usize {
    let mut stack = vec![PAINT; GIVEN + 4_096];
    let start = stack.as_mut_ptr().align_offset(4_096);
    let (mut attributes, mut thread) = (Attributes([0; 56]), 0);
    // SAFETY: the stack outlives the thread, which is joined here.
    unsafe {
        assert_eq!(pthread_attr_init(&raw mut attributes), 0);
        assert_eq!(pthread_attr_setstack(&raw mut attributes, stack[start..].as_mut_ptr().cast(), GIVEN), 0);
        assert_eq!(pthread_create(&raw mut thread, &raw const attributes, work, argument), 0);
        assert_eq!(pthread_join(thread, ptr::null_mut()), 0);
    }
    let untouched = stack[start..].iter().take_while(|&&byte| byte == PAINT).count();
    GIVEN - untouched
}

extern "C" fn nothing(_: *mut c_void) -> *mut c_void {
    ptr::null_mut()
}

/// What every call is made with.
struct Given {
    run: Run,
    /// The typed question.
    text: String,
    /// The copy's, and the typed question's.
    output: Vec<u8>,
    /// What each call was answered, 0 or the refusal's number, in the sequence in which they are made.
    numbers: [u8; 7],
}

extern "C" fn every_call(given: *mut c_void) -> *mut c_void {
    // SAFETY: the one argument that the test passes, which it does not use meanwhile.
    let Given { run: Run { catalogue, question, order, reader, listed, looks, tally }, text, output, numbers } =
        unsafe { &mut *given.cast::<Given>() };
    let words = [
        searchroom::raw::typed(catalogue, text.as_bytes(), output),
        searchroom::raw::check_catalogue(catalogue),
        searchroom::raw::check_question(catalogue, question),
        searchroom::raw::outcome(catalogue, question, 0, 0),
        searchroom::raw::outcome(catalogue, question, 0, 1),
        searchroom::raw::run(catalogue, question, order, *reader, listed, looks, tally),
        searchroom::raw::copy(catalogue, question, order, output),
    ];
    *numbers = words.map(|word| word.number());
    ptr::null_mut()
}

/// Eight groups deep, with 64 conditions on numbers and on texts, over 2,048 entries of which none is withdrawn.
fn largest() -> Given {
    let texts = vec![(1..=23).collect(); 2_048];
    let columns = vec![Column::Numbers((0..2_048).collect()), Column::Texts(texts)];
    let made = Catalogue { entries: 2_048, columns, mark: Some(vec![false; 2_048]) };
    let condition = |number: u8| {
        let on_number = Test::NumberFrom { low: number.into(), high: 2_000 };
        let (column, test) = if number.is_multiple_of(2) { (0, on_number) } else { (1, Test::Contains(vec![number])) };
        Condition { column, test, opposite: number.is_multiple_of(3) }
    };
    let mut tree = Tree::AnyOf((7..64).map(Tree::Condition).collect());
    for number in (0..7).rev() {
        tree = Tree::AllOf(vec![Tree::Condition(number), tree]);
    }
    let asked = Question { tree, conditions: (0..64).map(condition).collect() };
    let order: Vec<u8> = (0..64).collect();
    let run = Run::fitting(&made, &asked, &order);
    let text = spelling(&run.question).expect("a typed form");
    Given { run, text, output: vec![0; searchroom::COPY_BYTES], numbers: [u8::MAX; 7] }
}

#[test]
fn calls_take_less_stack_than_promised() {
    let mut given = largest();
    let thread_alone = stack_taken(nothing, ptr::null_mut());
    let taken = stack_taken(every_call, (&raw mut given).cast()) - thread_alone;
    assert_eq!(given.numbers, [0; 7], "every call was accepted");
    println!("the calls take at most {taken} bytes of stack");
    assert!(taken < PROMISED, "{taken} bytes of stack, promised are less than {PROMISED}");
    // A text is read to its end before a ninth group is refused.
    let mut given = largest();
    given.text = format!("{}c0 blank{}", "all(".repeat(3_275), ")".repeat(3_275));
    let taken = stack_taken(every_call, (&raw mut given).cast()) - thread_alone;
    assert_eq!(given.numbers, [10, 0, 0, 0, 0, 0, 0], "the text was read to its end");
    assert!(taken < PROMISED, "{taken} bytes of stack for a text of 3,275 nested groups");
    // The reader stops at the ninth group, however many there are.
    let mut question = vec![80, 0, 0];
    while question.len() + 3 <= 65_538 {
        question = [[65].as_slice(), &(question.len() as u16).to_be_bytes(), &question].concat();
    }
    let mut given = largest();
    given.run.question = question;
    let taken = stack_taken(every_call, (&raw mut given).cast()) - thread_alone;
    assert_eq!(given.numbers, [0, 0, 10, 10, 10, 10, 10], "the question was read to its ninth group");
    assert!(taken < PROMISED, "{taken} bytes of stack for 21,845 nested groups");
}
