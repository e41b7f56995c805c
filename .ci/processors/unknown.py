"""Forms that the lowering doesn't know: each alone in a module must be refused."""

import counted
import lowered

HEAD = 'target datalayout = "e"\ntarget triple = "x86_64-unknown-linux-gnu"\n'
INSTRUCTIONS = """
%r = inttoptr i64 %a to ptr
%r = ptrtoint ptr %p to i64
%r = addrspacecast ptr %p to ptr addrspace(1)
%r = icmp ult ptr %p, %q
%r = icmp eq ptr %p, %q
%r = getelementptr i32, ptr %p, i64 1
%r = getelementptr { ptr, i64 }, ptr %p, i64 1
%r = getelementptr i8, ptr %p, i64 2147483648
%r = getelementptr i8, ptr %p, i64 -1
%r = load <2 x ptr>, ptr %p, align 16
%r = load [2 x ptr], ptr %p, align 8
%r = load { ptr, { i64, i64 } }, ptr %p, align 8
%r = load double, ptr %p, align 8
%r = load volatile i64, ptr %p, align 8
store { ptr, i24 } %r, ptr %p, align 8
store volatile ptr %q, ptr %p, align 8
store atomic i64 %a, ptr %p seq_cst, align 8
%r = alloca { ptr, i64 }, align 8
%r = alloca [2 x ptr], align 8
%r = alloca i8, i64 %a, align 1
%r = atomicrmw add ptr %p, i64 %a seq_cst
%r = cmpxchg ptr %p, i64 %a, i64 %a seq_cst seq_cst
%r = call i64 %p(i64 %a)
call void asm sideeffect "", ""()
call void @f(ptr byval(i64) %p)
%r = va_arg ptr %p, i64
fence seq_cst
%r = fadd double %a, %a
""".strip().splitlines()
OUTSIDE = """
@g = global i64 0, align 8
@g = private constant ptr null, align 8
@g = private constant [2 x ptr] [ptr null, ptr null], align 8
@g = private constant <{ ptr, i64 }> <{ ptr null, i64 0 }>, align 8
@g = private constant <{ ptr }> <{ ptr getelementptr (i32, ptr @h, i64 1) }>, align 8
@g = thread_local global i64 0, align 8
@g = alias ptr, ptr @h
declare i64 @read(i32, ptr, i64)
declare void @llvm.va_start(ptr)
module asm "nop"
%t = type { ptr, i64 }
define { i64, i64 } @export(ptr %a0) {
define i64 @export(ptr byval(i64) %a0) #1 {
define i64 @export(ptr noundef %a0, double %a1) #1 {
define i64 @export(ptr noundef %a0) personality ptr @f {
define internal void @own(ptr byval({ ptr, i64 }) %a0) {
""".strip().splitlines()


def module_with(line):
    if line in INSTRUCTIONS:
        return f"{HEAD}define internal void @own(ptr %p, ptr %q, i64 %a) {{\nstart:\n  {line}\n  ret void\n}}\n"
    return f"{HEAD}{line}\n" + ("start:\n  ret void\n}\n" if line.startswith("define") else "")


def is_refused(line):
    try:
        lowered.Lowering("i386", True).module(module_with(line))
    except (lowered.Refused, counted.Miscounted):
        return True
    return False


def taken():
    """The forms that are taken all the same."""
    return [it for it in INSTRUCTIONS + OUTSIDE if not is_refused(it)]
