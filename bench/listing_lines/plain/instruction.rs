//! Instructions, in canonical and other spellings.

use crate::operands::Operand::{self, Base, Indexed, List, Name, Number, Offset, Register};
use crate::operands::operands;
use crate::words::{token, Token};

#[derive(Clone, Copy)]
pub enum Sum { Add, Sub }

#[derive(Clone, Copy)]
pub enum Right { Lsr, Asr }

#[derive(Clone, Copy)]
pub enum ByteOperation { Mov, Cmp, Add, Sub }

#[derive(Clone, Copy)]
pub enum Operation { And, Eor, Lsl, Lsr, Asr, Adc, Sbc, Ror, Tst, Rsb, Cmp, Cmn, Orr, Mul, Bic, Mvn }

#[derive(Clone, Copy)]
pub enum Extension { Sxth, Sxtb, Uxth, Uxtb }

#[derive(Clone, Copy)]
pub enum Reversal { Rev, Rev16, Revsh }

#[derive(Clone, Copy)]
pub enum Access { Str, Strh, Strb, Ldrsb, Ldr, Ldrh, Ldrb, Ldrsh }

#[derive(Clone, Copy)]
pub enum Condition { Eq, Ne, Cs, Cc, Mi, Pl, Vs, Vc, Hi, Ls, Ge, Lt, Gt, Le }

#[derive(Clone, Copy)]
pub enum Hint { Nop, Yield, Wfe, Wfi, Sev }

#[derive(Clone, Copy)]
pub enum Interrupts { Enable, Disable }

#[derive(Clone, Copy)]
pub enum Barrier { Dsb, Dmb, Isb }

#[derive(Clone, Copy)]
pub enum Special { Primask, Ipsr }

/// An instruction: registers by number, offsets in units of what is loaded or stored, bit 8 of a pushed or popped list for lr or pc.
#[allow(dead_code)]
#[derive(Clone, Copy)]
pub enum Instr {
    Mov { target: u8, source: u8 },
    Three { sum: Sum, target: u8, left: u8, right: u8 },
    Two { operation: Operation, target: u8, other: u8 },
    Bx { source: u8 },
    Movs { target: u8, source: u8 },
    ShiftLeft { target: u8, source: u8, amount: u8 },
    ShiftRight { shift: Right, target: u8, source: u8, amount: u8 },
    ThreeNumber { sum: Sum, target: u8, source: u8, number: u8 },
    TwoNumber { operation: ByteOperation, target: u8, number: u8 },
    Add { target: u8, source: u8 },
    Compare { left: u8, right: u8 },
    Blx { source: u8 },
    Literal { target: u8 },
    Indexed { access: Access, target: u8, base: u8, index: u8 },
    Offset { access: Access, target: u8, base: u8, offset: u8 },
    Stack { access: Access, target: u8, offset: u8 },
    Address { target: u8 },
    StackAddress { target: u8, offset: u8 },
    StackMove { sum: Sum, offset: u8 },
    Extend { extension: Extension, target: u8, source: u8 },
    Reverse { reversal: Reversal, target: u8, source: u8 },
    Push { list: u16 },
    Pop { list: u16 },
    StoreMany { base: u8, list: u8 },
    LoadMany { base: u8, list: u8 },
    Breakpoint { number: u8 },
    Service { number: u8 },
    Hint(Hint),
    ChangeState(Interrupts),
    BranchIf(Condition),
    Branch,
    Call,
    Barrier(Barrier),
    ReadSpecial { target: u8, special: Special },
    WriteMask { source: u8 },
}

fn sum(sum: Sum, operation: ByteOperation, operands: &[Operand]) -> Option<Instr> {
    match *operands {
        [Register(target @ 0..=7), Register(left @ 0..=7), Register(right @ 0..=7)] => Some(Instr::Three { sum, target, left, right }),
        [Register(target @ 0..=7), Register(right @ 0..=7)] => Some(Instr::Three { sum, target, left: target, right }),
        [Register(target @ 0..=7), Register(source @ 0..=7), Number(number @ 0..=7)] => {
            Some(Instr::ThreeNumber { sum, target, source, number: number as u8 })
        }
        [Register(target), Register(source), Number(_)] if target != source => None,
        [Register(target), Register(_), Number(number)] => byte(operation, &[Register(target), Number(number)]),
        _ => byte(operation, operands),
    }
}

fn add(operands: &[Operand]) -> Option<Instr> {
    let (target, source) = match *operands {
        [Register(target @ 0..=7), Register(13), Number(number @ 0..=1020)] if number % 4 == 0 => {
            return Some(Instr::StackAddress { target, offset: (number / 4) as u8 });
        }
        [.., Number(_)] => return stack_move(Sum::Add, operands),
        [Register(target), Register(source)] => (target, source),
        [Register(target), Register(left), Register(right)] if left == target => (target, right),
        [Register(target), Register(left), Register(right)] if right == target => (target, left),
        _ => return None,
    };
    (target < 15 && source < 15 && (target, source) != (13, 13)).then_some(Instr::Add { target, source })
}

fn stack_move(sum: Sum, operands: &[Operand]) -> Option<Instr> {
    match *operands {
        [Register(13), Number(number @ 0..=508)] | [Register(13), Register(13), Number(number @ 0..=508)] if number % 4 == 0 => {
            Some(Instr::StackMove { sum, offset: (number / 4) as u8 })
        }
        _ => None,
    }
}

fn byte(operation: ByteOperation, operands: &[Operand]) -> Option<Instr> {
    match *operands {
        [Register(target @ 0..=7), Number(number @ 0..=255)] => Some(Instr::TwoNumber { operation, target, number: number as u8 }),
        _ => None,
    }
}

fn compare(operands: &[Operand]) -> Option<Instr> {
    match *operands {
        [Register(target @ 0..=7), Register(other @ 0..=7)] => Some(Instr::Two { operation: Operation::Cmp, target, other }),
        [Register(left @ 0..=14), Register(right @ 0..=14)] => Some(Instr::Compare { left, right }),
        _ => byte(ByteOperation::Cmp, operands),
    }
}

/// `target, other`
fn two(operation: Operation, operands: &[Operand]) -> Option<Instr> {
    match *operands {
        [Register(target @ 0..=7), Register(other @ 0..=7)] => Some(Instr::Two { operation, target, other }),
        _ => None,
    }
}

/// Also `target, target, other`.
fn in_place(operation: Operation, operands: &[Operand]) -> Option<Instr> {
    match *operands {
        [Register(target @ 0..=7), Register(left), Register(other @ 0..=7)] if left == target => Some(Instr::Two { operation, target, other }),
        _ => two(operation, operands),
    }
}

/// Also `target, other, target`.
fn commuting(operation: Operation, operands: &[Operand]) -> Option<Instr> {
    match *operands {
        [Register(target @ 0..=7), Register(other @ 0..=7), Register(right)] if right == target => Some(Instr::Two { operation, target, other }),
        _ => in_place(operation, operands),
    }
}

fn shift_left(operands: &[Operand]) -> Option<Instr> {
    let (target, source, number) = match *operands {
        [Register(target), Number(number)] => (target, target, number),
        [Register(target), Register(source), Number(number)] => (target, source, number),
        _ => return in_place(Operation::Lsl, operands),
    };
    match (target, source, number) {
        (0..=7, 0..=7, 0) => Some(Instr::Movs { target, source }),
        (0..=7, 0..=7, 1..=31) => Some(Instr::ShiftLeft { target, source, amount: number as u8 }),
        _ => None,
    }
}

fn shift_right(shift: Right, operation: Operation, operands: &[Operand]) -> Option<Instr> {
    let (target, source, number) = match *operands {
        [Register(target), Number(number)] => (target, target, number),
        [Register(target), Register(source), Number(number)] => (target, source, number),
        _ => return in_place(operation, operands),
    };
    match (target, source, number) {
        (0..=7, 0..=7, 1..=32) => Some(Instr::ShiftRight { shift, target, source, amount: number as u8 }),
        _ => None,
    }
}

fn extend(extension: Extension, operands: &[Operand]) -> Option<Instr> {
    match *operands {
        [Register(target @ 0..=7), Register(source @ 0..=7)] => Some(Instr::Extend { extension, target, source }),
        _ => None,
    }
}

fn reverse(reversal: Reversal, operands: &[Operand]) -> Option<Instr> {
    match *operands {
        [Register(target @ 0..=7), Register(source @ 0..=7)] => Some(Instr::Reverse { reversal, target, source }),
        _ => None,
    }
}

fn indexed(access: Access, operands: &[Operand]) -> Option<Instr> {
    match *operands {
        [Register(target @ 0..=7), Indexed(base @ 0..=7, index @ 0..=7)] => Some(Instr::Indexed { access, target, base, index }),
        _ => None,
    }
}

/// An access of `size` bytes.
fn access(access: Access, size: u32, operands: &[Operand]) -> Option<Instr> {
    match *operands {
        [Register(target @ 0..=7), Offset(base @ 0..=7, number)] if number < 32 * size && number % size == 0 => {
            Some(Instr::Offset { access, target, base, offset: (number / size) as u8 })
        }
        [Register(target @ 0..=7), Offset(13, number @ 0..=1020)] if size == 4 && number % 4 == 0 => {
            Some(Instr::Stack { access, target, offset: (number / 4) as u8 })
        }
        _ => indexed(access, operands),
    }
}

/// The list with bit 8 in place of the bit of one more register, if its other registers are r0 to r7.
fn stack_list(list: u16, extra: u8) -> Option<u16> {
    let more = list >> extra & 1;
    (list & !0xff == more << extra).then_some(list & 0xff | more << 8)
}

fn store_many(operands: &[Operand]) -> Option<Instr> {
    match *operands {
        [Base(base @ 0..=7), List(list @ 1..=255)] if list >> base & 1 == 0 || list & ((1 << base) - 1) == 0 => {
            Some(Instr::StoreMany { base, list: list as u8 })
        }
        _ => None,
    }
}

fn load_many(operands: &[Operand]) -> Option<Instr> {
    match *operands {
        [Base(base @ 0..=7), List(list @ 1..=255)] if list >> base & 1 == 0 => Some(Instr::LoadMany { base, list: list as u8 }),
        [Register(base @ 0..=7), List(list @ 1..=255)] if list >> base & 1 == 1 => Some(Instr::LoadMany { base, list: list as u8 }),
        _ => None,
    }
}

fn branch(instr: Instr, operands: &[Operand]) -> Option<Instr> {
    matches!(operands, [Name(_)]).then_some(instr)
}

fn alone(instr: Instr, operands: &[Operand]) -> Option<Instr> {
    operands.is_empty().then_some(instr)
}

fn barrier(barrier: Barrier, operands: &[Operand]) -> Option<Instr> {
    matches!(operands, [] | [Name(b"sy")]).then_some(Instr::Barrier(barrier))
}

fn is_general(register: u8) -> bool {
    register < 15 && register != 13
}

/// The instruction of a lower-case mnemonic with these operands.
fn instr(mnemonic: &[u8], operands: &[Operand]) -> Option<Instr> {
    match mnemonic {
        b"movs" => match *operands {
            [Register(target @ 0..=7), Register(source @ 0..=7)] => Some(Instr::Movs { target, source }),
            _ => byte(ByteOperation::Mov, operands),
        },
        b"mov" => match *operands {
            [Register(target @ 0..=14), Register(source @ 0..=14)] => Some(Instr::Mov { target, source }),
            _ => None,
        },
        b"adds" => sum(Sum::Add, ByteOperation::Add, operands),
        b"subs" => sum(Sum::Sub, ByteOperation::Sub, operands),
        b"add" => add(operands),
        b"sub" => stack_move(Sum::Sub, operands),
        b"cmp" => compare(operands),
        b"lsls" => shift_left(operands),
        b"lsrs" => shift_right(Right::Lsr, Operation::Lsr, operands),
        b"asrs" => shift_right(Right::Asr, Operation::Asr, operands),
        b"ands" => commuting(Operation::And, operands),
        b"eors" => commuting(Operation::Eor, operands),
        b"adcs" => commuting(Operation::Adc, operands),
        b"orrs" => commuting(Operation::Orr, operands),
        b"muls" => commuting(Operation::Mul, operands),
        b"sbcs" => in_place(Operation::Sbc, operands),
        b"rors" => in_place(Operation::Ror, operands),
        b"bics" => in_place(Operation::Bic, operands),
        b"tst" => two(Operation::Tst, operands),
        b"cmn" => two(Operation::Cmn, operands),
        b"mvns" => two(Operation::Mvn, operands),
        b"negs" => two(Operation::Rsb, operands),
        b"rsbs" => match operands {
            [front @ .., Number(0)] => two(Operation::Rsb, front),
            _ => None,
        },
        b"sxth" => extend(Extension::Sxth, operands),
        b"sxtb" => extend(Extension::Sxtb, operands),
        b"uxth" => extend(Extension::Uxth, operands),
        b"uxtb" => extend(Extension::Uxtb, operands),
        b"rev" => reverse(Reversal::Rev, operands),
        b"rev16" => reverse(Reversal::Rev16, operands),
        b"revsh" => reverse(Reversal::Revsh, operands),
        b"ldr" => match *operands {
            [Register(target @ 0..=7), Name(_) | Operand::Sum(..)] => Some(Instr::Literal { target }),
            _ => access(Access::Ldr, 4, operands),
        },
        b"adr" => match *operands {
            [Register(target @ 0..=7), Name(_) | Operand::Sum(..)] => Some(Instr::Address { target }),
            _ => None,
        },
        b"str" => access(Access::Str, 4, operands),
        b"ldrh" => access(Access::Ldrh, 2, operands),
        b"strh" => access(Access::Strh, 2, operands),
        b"ldrb" => access(Access::Ldrb, 1, operands),
        b"strb" => access(Access::Strb, 1, operands),
        b"ldrsb" => indexed(Access::Ldrsb, operands),
        b"ldrsh" => indexed(Access::Ldrsh, operands),
        b"push" => match *operands {
            [List(list)] => stack_list(list, 14).map(|list| Instr::Push { list }),
            _ => None,
        },
        b"pop" => match *operands {
            [List(list)] => stack_list(list, 15).map(|list| Instr::Pop { list }),
            _ => None,
        },
        b"stm" | b"stmia" => store_many(operands),
        b"ldm" | b"ldmia" => load_many(operands),
        b"b" => branch(Instr::Branch, operands),
        b"bl" => branch(Instr::Call, operands),
        b"beq" => branch(Instr::BranchIf(Condition::Eq), operands),
        b"bne" => branch(Instr::BranchIf(Condition::Ne), operands),
        b"bcs" | b"bhs" => branch(Instr::BranchIf(Condition::Cs), operands),
        b"bcc" | b"blo" => branch(Instr::BranchIf(Condition::Cc), operands),
        b"bmi" => branch(Instr::BranchIf(Condition::Mi), operands),
        b"bpl" => branch(Instr::BranchIf(Condition::Pl), operands),
        b"bvs" => branch(Instr::BranchIf(Condition::Vs), operands),
        b"bvc" => branch(Instr::BranchIf(Condition::Vc), operands),
        b"bhi" => branch(Instr::BranchIf(Condition::Hi), operands),
        b"bls" => branch(Instr::BranchIf(Condition::Ls), operands),
        b"bge" => branch(Instr::BranchIf(Condition::Ge), operands),
        b"blt" => branch(Instr::BranchIf(Condition::Lt), operands),
        b"bgt" => branch(Instr::BranchIf(Condition::Gt), operands),
        b"ble" => branch(Instr::BranchIf(Condition::Le), operands),
        b"bx" => match *operands {
            [Register(source)] if is_general(source) => Some(Instr::Bx { source }),
            _ => None,
        },
        b"blx" => match *operands {
            [Register(source)] if is_general(source) => Some(Instr::Blx { source }),
            _ => None,
        },
        b"bkpt" => match *operands {
            [Number(number @ 0..=255)] => Some(Instr::Breakpoint { number: number as u8 }),
            _ => None,
        },
        b"svc" => match *operands {
            [Number(number @ 0..=255)] => Some(Instr::Service { number: number as u8 }),
            _ => None,
        },
        b"nop" => alone(Instr::Hint(Hint::Nop), operands),
        b"yield" => alone(Instr::Hint(Hint::Yield), operands),
        b"wfe" => alone(Instr::Hint(Hint::Wfe), operands),
        b"wfi" => alone(Instr::Hint(Hint::Wfi), operands),
        b"sev" => alone(Instr::Hint(Hint::Sev), operands),
        b"cpsie" => matches!(operands, [Name(b"i")]).then_some(Instr::ChangeState(Interrupts::Enable)),
        b"cpsid" => matches!(operands, [Name(b"i")]).then_some(Instr::ChangeState(Interrupts::Disable)),
        b"dsb" => barrier(Barrier::Dsb, operands),
        b"dmb" => barrier(Barrier::Dmb, operands),
        b"isb" => barrier(Barrier::Isb, operands),
        b"mrs" => match *operands {
            [Register(target), Name(name)] if is_general(target) && name.eq_ignore_ascii_case(b"primask") => {
                Some(Instr::ReadSpecial { target, special: Special::Primask })
            }
            [Register(target), Name(name)] if is_general(target) && name.eq_ignore_ascii_case(b"ipsr") => {
                Some(Instr::ReadSpecial { target, special: Special::Ipsr })
            }
            _ => None,
        },
        b"msr" => match *operands {
            [Name(name), Register(source)] if is_general(source) && name.eq_ignore_ascii_case(b"primask") => Some(Instr::WriteMask { source }),
            _ => None,
        },
        _ => None,
    }
}

/// The greatest length of a mnemonic in bytes.
const LONGEST_MNEMONIC: usize = 5;

/// An instruction, with the name that it mentions and the number added to it.
pub fn instruction(bytes: &[u8]) -> Option<(Instr, Option<(&[u8], u32)>)> {
    let (Token::Word(word), after) = token(bytes)? else { return None };
    let mut mnemonic = [0; LONGEST_MNEMONIC];
    let mnemonic = mnemonic.get_mut(..word.len())?;
    mnemonic.copy_from_slice(word);
    mnemonic.make_ascii_lowercase();
    let (operands, count) = operands(after)?;
    let operands = &operands[..count];
    let instr = instr(mnemonic, operands)?;
    let mention = match (instr, operands) {
        (Instr::Branch | Instr::Call | Instr::BranchIf(_), [Name(name)]) => Some((*name, 0)),
        (Instr::Literal { .. } | Instr::Address { .. }, [_, Name(name)]) => Some((*name, 0)),
        (Instr::Literal { .. } | Instr::Address { .. }, [_, Operand::Sum(name, plus)]) => Some((*name, *plus)),
        _ => None,
    };
    Some((instr, mention))
}
