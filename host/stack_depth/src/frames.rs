//! How much of the stack a function takes, read off its code: what `objdump --disassemble --reloc --no-show-raw-insn`
//! prints of the archives. Every way through a function is followed, with the depth of its stack: saved registers, and
//! bytes that are taken and given back. What is used below the stack pointer counts too. A call adds its return address
//! and what the called function takes. Code whose depth cannot be told this way is an error.

use std::collections::HashMap;

/// The prefix of exported functions.
const PREFIX: &str = "gorvisclen_";

/// What a call pushes, and what a saved register takes.
const WORD: i64 = 8;

/// Functions of the C library, which the compiler calls. Their code is not in the archives: only their return address
/// is counted. Painting shows what else they take.
const C_FUNCTIONS: [&str; 3] = ["memcpy", "memmove", "memset"];

struct Instruction<'a> {
    address: u64,
    operation: &'a str,
    operands: &'a str,
    /// The function whose address the linker fills in.
    symbol: Option<&'a str>,
}

/// Where an instruction leads.
enum Next<'a> {
    Following,
    Place(usize),
    FollowingOr(usize),
    Function(&'a str),
    TableOfPlaces,
    End,
}

/// The functions of an archive, by their names.
type Archive<'a> = HashMap<&'a str, Vec<Instruction<'a>>>;

/// The exported functions by their names without the prefix, and what each takes of the stack.
pub fn exported(text: &str) -> Result<HashMap<String, usize>, String> {
    let mut depths = HashMap::new();
    for archive in archives(text)? {
        for name in archive.keys() {
            if let Some(short) = name.strip_prefix(PREFIX) {
                depths.insert(short.to_string(), depth(&archive, name, &mut vec![])? as usize);
            }
        }
    }
    Ok(depths)
}

fn archives(text: &str) -> Result<Vec<Archive<'_>>, String> {
    let mut archives: Vec<Archive> = vec![];
    let mut name = "";
    for line in text.lines() {
        if line.starts_with("In archive") {
            archives.push(Archive::new());
        }
        let Some(archive) = archives.last_mut() else { continue };
        if let Some(head) = function_name(line) {
            name = head;
            if archive.insert(name, vec![]).is_some() {
                return Err(format!("two functions {name} in one archive"));
            }
        } else if let Some(function) = archive.get_mut(name) {
            match (line.split_once(": R_X86_64_"), function.last_mut()) {
                (Some((_, relocation)), Some(instruction)) => instruction.symbol = symbol(relocation),
                _ => function.extend(instruction(line)),
            }
        }
    }
    Ok(archives)
}

fn hexadecimal(text: &str) -> Option<u64> {
    u64::from_str_radix(text.strip_prefix("0x").unwrap_or(text), 16).ok()
}

/// The name in a line `0000000000000000 <NAME>:`.
fn function_name(line: &str) -> Option<&str> {
    line.split_once(" <")?.1.strip_suffix(">:").filter(|_| line.starts_with('0'))
}

/// The function in the rest of a line `2: R_X86_64_PLT32<tab>.text.NAME-0x4`.
fn symbol(relocation: &str) -> Option<&str> {
    let name = relocation.split_once('\t')?.1.split(['-', '+']).next()?;
    Some(name.strip_prefix(".text.").unwrap_or(name))
}

/// An instruction from a line `  1f:<tab>sub    $0x18,%rsp`.
fn instruction(line: &str) -> Option<Instruction<'_>> {
    let (address, text) = line.split_once(":\t")?;
    let text = text.split('#').next()?.trim();
    let text = text.strip_prefix("notrack ").or(text.strip_prefix("bnd ")).unwrap_or(text);
    let (operation, operands) = text.split_once(' ').unwrap_or((text, ""));
    Some(Instruction { address: hexadecimal(address.trim())?, operation, operands: operands.trim(), symbol: None })
}

impl<'a> Instruction<'a> {
    /// The address that is jumped to, and the name that objdump prints beside it.
    fn target(&self) -> Option<(u64, &'a str)> {
        let (address, name) = self.operands.split_once(" <")?;
        Some((hexadecimal(address)?, name.strip_suffix('>')?))
    }

    /// The function that is called or jumped to.
    fn callee(&self) -> Option<&'a str> {
        self.symbol.or_else(|| self.target().map(|(_, name)| name))
    }

    /// Where it leads in its function, if that can be told.
    fn next(&self, function: &[Instruction]) -> Option<Next<'a>> {
        if matches!(self.operation, "ret" | "ud2" | "int3" | "hlt") {
            return Some(Next::End);
        }
        if !self.operation.starts_with('j') {
            return Some(Next::Following);
        }
        if self.operands.starts_with('*') {
            // An address that the linker fills in is a function's; any other one is taken from a table.
            return Some(match self.operands.contains("(%rip)") {
                true => Next::Function(self.symbol?),
                false => Next::TableOfPlaces,
            });
        }
        let (address, _) = self.target()?;
        let place = match self.symbol {
            None => function.binary_search_by_key(&address, |instruction| instruction.address).ok(),
            Some(_) => None,
        };
        match (self.operation, place) {
            ("jmp", Some(place)) => Some(Next::Place(place)),
            ("jmp", None) => self.callee().map(Next::Function),
            (_, Some(place)) => Some(Next::FollowingOr(place)),
            (_, None) => None,
        }
    }

    /// How much deeper the stack is after it, if that can be told.
    fn deeper(&self) -> Option<i64> {
        let number = || hexadecimal(self.operands.strip_prefix('$')?.strip_suffix(",%rsp")?).map(|n| n as i64);
        match (self.operation, self.operands.ends_with("%rsp")) {
            ("push", _) => Some(WORD),
            ("pop", false) => Some(-WORD),
            ("sub", true) => number(),
            ("add", true) => number().map(|n| -n),
            ("cmp" | "test", _) => Some(0),
            ("leave" | "enter", _) | (_, true) => None,
            _ => Some(0),
        }
    }

    /// How far below the stack pointer it reaches, as in `mov %rax,-0x18(%rsp)`.
    fn below(&self) -> Option<i64> {
        let before = self.operands.split_once("(%rsp")?.0;
        let offset = before.rsplit([',', ' ', '*']).next()?;
        hexadecimal(offset.strip_prefix('-')?).map(|n| n as i64)
    }
}

/// How many bytes a function takes, with the functions that it calls. `callers` are those on the way to it.
fn depth<'a>(archive: &Archive<'a>, name: &'a str, callers: &mut Vec<&'a str>) -> Result<i64, String> {
    if C_FUNCTIONS.contains(&name) {
        return Ok(0);
    }
    if callers.contains(&name) {
        return Err(format!("{name} calls itself"));
    }
    let function =
        archive.get(name).ok_or_else(|| format!("{name}, which {callers:?} call, is not in their archive"))?;
    callers.push(name);
    let mut deepest = 0;
    for (instruction, before) in function.iter().zip(depths_before(name, function)?) {
        let called = match (instruction.operation, instruction.next(function)) {
            ("call", _) => {
                let callee = instruction.callee().ok_or_else(|| format!("{name} calls what cannot be told"))?;
                WORD + depth(archive, callee, callers)?
            }
            (_, Some(Next::Function(callee))) => depth(archive, callee, callers)?,
            _ => 0,
        };
        let taken = instruction.deeper().unwrap_or(0).max(instruction.below().unwrap_or(0)).max(called);
        deepest = deepest.max(before + taken);
    }
    callers.pop();
    Ok(deepest)
}

/// The depth of the stack before each instruction of a function.
fn depths_before(name: &str, function: &[Instruction]) -> Result<Vec<i64>, String> {
    let mut depths: Vec<Option<i64>> = vec![None; function.len()];
    let mut table = None;
    let mut open = vec![(0, 0)];
    loop {
        while let Some((i, before)) = open.pop() {
            let Some(instruction) = function.get(i) else { continue };
            let fail = |what| Err(format!("{name}, at {:x}: {what}", instruction.address));
            match depths[i] {
                Some(known) if known == before => continue,
                Some(_) => return fail("two depths of the stack"),
                None => depths[i] = Some(before),
            }
            let Some(deeper) = instruction.deeper() else { return fail("the stack pointer changes in an unknown way") };
            let after = before + deeper;
            match instruction.next(function) {
                None => return fail("an unknown jump"),
                Some(Next::Following) => open.push((i + 1, after)),
                Some(Next::Place(place)) => open.push((place, after)),
                Some(Next::FollowingOr(place)) => open.extend([(i + 1, after), (place, after)]),
                Some(Next::TableOfPlaces) => table = Some(after),
                Some(Next::Function(_) | Next::End) if after != 0 && instruction.operation != "ud2" => {
                    return fail("it leaves with bytes on the stack")
                }
                Some(Next::Function(_) | Next::End) => {}
            }
        }
        // What no jump leads to is reached through a table; without one it fills a gap and is never run.
        match (table, depths.iter().position(Option::is_none)) {
            (Some(depth), Some(i)) => open.push((i, depth)),
            _ => return Ok(depths.into_iter().map(|depth| depth.unwrap_or(0)).collect()),
        }
    }
}

#[cfg(test)]
mod tests {
    use super::exported;

    /// An archive with a function x, which returns at last, and a function y, which takes 16 bytes.
    fn archive(x: &[&str]) -> String {
        let mut text = String::from("In archive libx_abi.a:\n\n0000000000000000 <gorvisclen_x>:\n");
        for (address, line) in x.iter().chain(&["ret"]).enumerate() {
            match line.split_once(" to ") {
                Some((operation, name)) => {
                    text += &format!("   {address:x}:\t{operation}   9 <gorvisclen_x+0x9>\n");
                    text += &format!("\t\t\t{address:x}: R_X86_64_PLT32\t{name}-0x4\n");
                }
                None => text += &format!("   {address:x}:\t{line}\n"),
            }
        }
        let y = ["push   %rbx", "push   %rbp", "pop    %rbp", "pop    %rbx", "ret"];
        text += "\n0000000000000000 <y>:\n";
        y.iter().enumerate().for_each(|(address, line)| text += &format!("   {address:x}:\t{line}\n"));
        text
    }

    /// What x takes; nothing if that cannot be told.
    fn depth(x: &[&str]) -> Option<usize> {
        exported(&archive(x)).ok().map(|depths| depths["x"])
    }

    #[test]
    fn bytes_of_its_own() {
        assert_eq!(depth(&[]), Some(0));
        assert_eq!(depth(&["push   %rbx", "pop    %rbx"]), Some(8));
        assert_eq!(depth(&["push   %rbx", "sub    $0x28,%rsp", "add    $0x28,%rsp", "pop    %rbx"]), Some(48));
        assert_eq!(depth(&["add    $0xffffffffffffff80,%rsp", "sub    $0xffffffffffffff80,%rsp"]), Some(128));
        assert_eq!(depth(&["mov    0x38(%rsp),%rbx", "cmpq   $0x0,0x60(%rsp)", "cmp    %rax,%rsp"]), Some(0));
    }

    #[test]
    fn bytes_below_the_stack_pointer() {
        assert_eq!(depth(&["mov    %rax,-0x18(%rsp)"]), Some(24));
        assert_eq!(depth(&["movb   $0x5,-0x29(%rsp)", "lea    -0x8(%rsp,%rax,1),%rdi"]), Some(41));
        assert_eq!(depth(&["push   %rbx", "mov    -0x18(%rsp),%al", "pop    %rbx"]), Some(32));
    }

    #[test]
    fn calls() {
        assert_eq!(depth(&["push   %rbx", "call to .text.y", "pop    %rbx"]), Some(32));
        assert_eq!(depth(&["jmp to y"]), Some(16));
        assert_eq!(depth(&["call to memcpy"]), Some(8));
        assert_eq!(depth(&["call to memmove"]), Some(8));
        assert_eq!(depth(&["call to malloc"]), None);
        assert_eq!(depth(&["call to gorvisclen_x"]), None);
        assert_eq!(depth(&["call   *%rax"]), None);
        assert_eq!(depth(&["jmp    *0x0(%rip)"]), None);
        assert_eq!(depth(&["push   %rbx", "jmp to y"]), None);
    }

    #[test]
    fn every_way() {
        // A way that is skipped by one jump, and one that only a table of places leads to.
        assert_eq!(depth(&["je     3 <x+0x3>", "push   %rbx", "pop    %rbx"]), Some(8));
        assert_eq!(depth(&["jmp    *%rax", "push   %rbx", "pop    %rbx"]), Some(8));
        assert_eq!(depth(&["je     4 <x+0x4>", "push   %rbx", "jmp    4 <x+0x4>", "nop"]), None);
        assert_eq!(depth(&["push   %rbx"]), None);
        assert_eq!(depth(&["je     77 <z+0x77>"]), None);
    }

    #[test]
    fn a_stack_pointer_that_cannot_be_followed() {
        for line in
            ["and    $0xffffffffffffffe0,%rsp", "mov    %rbp,%rsp", "lea    -0x8(%rbp),%rsp", "leave", "pop    %rsp"]
        {
            assert_eq!(depth(&[line]), None, "{line}");
        }
    }
}
