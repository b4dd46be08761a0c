#!/usr/bin/env python3
"""frames.py LIBRARY: what each C call of the library takes of the stack at most, by its machine code, of x86-64 or of Arm. OBJDUMP may name the
command that reads it.

A function's frame is what it pushes and what it subtracts from the stack pointer, each counted once, wherever it stands, and the return address
where a call puts it on the stack. A call takes its frame and the most that any function takes that it calls, or what it keeps below the stack
pointer, as a function that calls none may on x86-64. That is a bound if no function calls itself, none is called by a pointer and the stack
pointer is moved in no other way; what is otherwise ends this with an error. `memset` and `memcpy`, of the C library, count as
a return address.
A line each: call, bytes, and the largest frame in it with its function."""
import collections, os, re, subprocess, sys

# How a processor's code is read. A large frame is taken a page at a time, in a loop up to a place; the page that the loop subtracts counts as the
# last of them. What is pushed is popped, what is subtracted is added, and where such a loop ends is only compared: that is undone.
Processor = collections.namedtuple('Processor', 'address takes before probed undone moves below called calls')
PAGE = 0x1000
PROCESSORS = {
    'elf64-x86-64': Processor(
        address=8,
        takes=re.compile(r'(?:push|sub +\$(0x[0-9a-f]+),%rsp)()'),
        before=re.compile(r'mov +%rsp,%r11'),
        probed=re.compile(r'sub +\$(0x[0-9a-f]+),%r11()'),
        undone=re.compile(r'pop|add +\$0x[0-9a-f]+,%rsp|cmp +%r11,%rsp'),
        moves=re.compile(r'.*,%[re]?sp\b'),
        below=re.compile(r'.*-(0x[0-9a-f]+)\(%rsp'),
        called=re.compile(r'.*R_X86_64_PLT32\t(?:\.text\.)?(\S+?)-0x4'),
        calls=re.compile(r'call')),
    'elf64-littleaarch64': Processor(
        address=0,
        takes=re.compile(r'(?:st[pr]\t.*\[sp(?:\], #-|, #-(?=\d+\]!))|sub\tsp, sp, #)(0x[0-9a-f]+|\d+)(, lsl #12)?'),
        before=re.compile(r''),
        probed=re.compile(r'sub\tx\d+, sp, #(0x[0-9a-f]+)(, lsl #12)?'),
        undone=re.compile(r'ld[pr]\t.*\[sp\], #\d+|add\tsp, sp, #|cmp\tsp, '),
        moves=re.compile(r'\w+\tsp,|.*\[sp[^]]*\]!|.*\[sp\], '),
        below=re.compile(r'.*\[sp, #-(\d+)\]$'),
        called=re.compile(r'.*R_AARCH64_(?:CALL|JUMP)26\t(?:\.text\.)?(\S+)'),
        calls=re.compile(r'blr?\t')),
}

def size(found):
    """The bytes that an instruction names, on Arm perhaps in pages; a push names none."""
    return int(found[1] or '8', 0) * (PAGE if found[2] else 1)

def functions(library):
    """Name to frame, what is kept below it, and callees; and the processor."""
    command = [os.environ.get('OBJDUMP', 'objdump'), '-d', '-r', '-w', '--no-show-raw-insn', library]
    lines = subprocess.run(command, capture_output=True, check=True, text=True).stdout.splitlines()
    formats = {m[1] for line in lines if (m := re.search(r'file format (\S+)', line))}
    if len(formats) != 1 or not formats <= PROCESSORS.keys():
        sys.exit(f'{library} has machine code of {", ".join(formats)}, and this reads {" and ".join(PROCESSORS)}')
    by = PROCESSORS[formats.pop()]
    found, name, before = {}, None, ''
    for line in lines:
        if head := re.fullmatch(r'[0-9a-f]+ <(.*)>:', line):
            name = head[1]
            found[name] = [by.address, 0, set()]
        code = line.partition(':\t')[2]
        if below := by.below.match(code):
            found[name][1] = max(found[name][1], int(below[1], 0))
        if takes := by.takes.match(code):
            found[name][0] += size(takes)
        elif by.before.match(before) and (probed := by.probed.match(code)):
            found[name][0] += size(probed) - PAGE
        elif called := by.called.match(code):
            found[name][2].add(called[1])
        elif by.calls.match(code) or by.moves.match(code) and not by.undone.match(code):
            sys.exit(f'{name}: not understood: {code}')
        before = code
    return found, by

def deepest(found, name, above=()):
    """The most that a call takes, and the largest frame in it."""
    if name in above:
        sys.exit(f'{name} calls itself, by {above}')
    if name not in found:
        sys.exit(f'{above[-1]} calls {name}, which is not in the library')
    frame, kept, callees = found[name]
    below = [deepest(found, callee, above + (name,)) for callee in callees]
    return frame + max([kept] + [b[0] for b in below]), max([(frame, name)] + [b[1] for b in below])

found, by = functions(sys.argv[1])
found['memset'] = found['memcpy'] = [by.address, 0, set()]
for name in sorted(found):
    if name.startswith('knobstream_'):
        depth, (frame, where) = deepest(found, name)
        print(f'{name}\t{depth}\t{frame}\t{where}')
