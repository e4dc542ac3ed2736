//! How much of the stack a call takes, seen in memory. The call runs on a stack of its own that has one colour before.
//! The deepest byte of another colour afterwards is the deepest one that was written.

use std::arch::global_asm;
use std::ffi::c_void;

/// How many bytes are painted.
const PAINTED: usize = 32_768;

/// What the call itself pushes, right below the end of the painted bytes. It is not counted.
const RETURN_ADDRESS: usize = 8;

/// A call is made once in each colour, since it may write a byte that has one of them already.
const COLOURS: [u8; 2] = [0x5A, 0xA5];

/// How many arguments are passed in registers. The others stand on the stack, above the return address.
const REGISTERS: usize = 6;

/// The most arguments that stand on the stack.
const PUSHED: usize = 16;

/// What the sample below takes.
const SAMPLE_DEPTH: usize = 108;

global_asm!(
    // Calls a function on another stack. The arguments that stand there are laid down before; the first six are loaded.
    // The registers that a function has to save are cleared: in a colour they would be saved unseen.
    "stack_depth_call:",
    "push rbp",
    "push rbx",
    "push r12",
    "push r13",
    "push r14",
    "push r15",
    "mov rbp, rsp",
    "mov rsp, rdx",
    "mov rax, rdi",
    "mov r10, rsi",
    "mov rdi, [r10]",
    "mov rsi, [r10 + 8]",
    "mov rdx, [r10 + 16]",
    "mov rcx, [r10 + 24]",
    "mov r8, [r10 + 32]",
    "mov r9, [r10 + 40]",
    "xor ebx, ebx",
    "xor r12d, r12d",
    "xor r13d, r13d",
    "xor r14d, r14d",
    "xor r15d, r15d",
    "call rax",
    "mov rsp, rbp",
    "pop r15",
    "pop r14",
    "pop r13",
    "pop r12",
    "pop rbx",
    "pop rbp",
    "ret",
    // Takes nothing.
    "stack_depth_empty:",
    "ret",
    // Saves a register, and writes a byte a hundred below it.
    "stack_depth_sample:",
    "push rbx",
    "mov byte ptr [rsp - 100], 1",
    "pop rbx",
    "ret",
);

extern "C" {
    fn stack_depth_call(function: Function, registers: *const u64, stack: *mut u64) -> u8;
    fn stack_depth_empty();
    fn stack_depth_sample();
}

/// The address of a function. Its arguments are numbers and pointers, and it returns a byte.
pub type Function = *const c_void;

/// A stack to call functions on.
pub struct Stack {
    words: Vec<u128>,
}

impl Stack {
    /// A stack, on which two functions of known depth were tried.
    pub fn new() -> Stack {
        let mut stack = Stack { words: vec![0; (PAINTED + 8 * PUSHED) / 16] };
        let known = [(stack_depth_empty as Function, 0), (stack_depth_sample as Function, SAMPLE_DEPTH)];
        for (function, depth) in known {
            // Safety: the two take no arguments.
            assert_eq!(unsafe { stack.call(function, &[]) }.1, depth, "the measuring is wrong");
        }
        stack
    }

    /// Calls a function; what it replies, and how many bytes of the stack it takes. A first call is not measured, since
    /// the loader may look for a function of the C library then.
    ///
    /// # Safety
    /// The arguments have to be those of the function.
    pub unsafe fn call(&mut self, function: Function, arguments: &[u64]) -> (u8, usize) {
        self.call_in(COLOURS[0], function, arguments);
        let [one, other] = COLOURS.map(|colour| self.call_in(colour, function, arguments));
        assert_eq!(one.0, other.0, "two equal calls reply differently");
        (one.0, one.1.max(other.1))
    }

    unsafe fn call_in(&mut self, colour: u8, function: Function, arguments: &[u64]) -> (u8, usize) {
        let mut registers = [0; REGISTERS];
        let (loaded, pushed) = arguments.split_at(arguments.len().min(REGISTERS));
        assert!(pushed.len() <= PUSHED, "too many arguments");
        registers[..loaded.len()].copy_from_slice(loaded);

        let untouched = u128::from_ne_bytes([colour; 16]);
        self.words.fill(untouched);
        let stack = self.words.as_mut_ptr().byte_add(PAINTED).cast::<u64>();
        stack.copy_from_nonoverlapping(pushed.as_ptr(), pushed.len());
        let reply = stack_depth_call(function, registers.as_ptr(), stack);

        let deepest = self.words.iter().position(|&word| word != untouched).expect("nothing was called");
        assert!(deepest > 0, "the painted stack is too short");
        let within = self.words[deepest].to_ne_bytes().iter().take_while(|&&byte| byte == colour).count();
        // A byte of the return address may have the colour, too.
        (reply, (PAINTED - RETURN_ADDRESS).saturating_sub(16 * deepest + within))
    }
}
