#!/usr/bin/env python3
"""What the archive of the C calls asks of the program that links it, read from its machine code (nm, size and objdump of binutils):

    archive.py ARCHIVE HEADER

It fails where the archive needs another symbol than memcpy and memset, has data that is written, has an instruction past plain x86-64 with SSE2,
or asks for more code or stack than HEADER (include/store.h) says, or for more below the stack pointer than the red zone; and it says which functions use that. The stack is a bound for every input: no function calls itself, calls through a pointer or moves the stack
pointer after its first instructions, so a call uses what the deepest chain of calls adds up to, with the red zone below it. What memcpy and memset use
themselves is the linked library's."""
import re
import subprocess
import sys

NEEDS = {"memcpy", "memset"}
RED_ZONE = 128
CALLS = ["store_mount", "store_format", "store_delete", "store_list"]

# the instructions of SSE and SSE2 on its registers, without the ones on floats that compute
SSE2 = re.compile(
    r"mov([au]p[sd]|dq[au]|[dq]|s[sd]|mskp[sd]|[hl]p[sd]|hlps|lhps)|(and|andn|or|xor)p[sd]|unpck[hl]p[sd]|shufp[sd]"
    r"|p(and|andn|or|xor|add[bwdq]|sub[bwdq]|cmp(eq|gt)[bwd]|movmskb|shuf(d|[hl]w)|s[lr]l([wdq]|dq)|sra[wd]|unpck[hl](bw|wd|dq|qdq)"
    r"|ack(sswb|ssdw|uswb)|(max|min)(ub|sw)|mul(lw|hw|hu?w|udq)|maddwd|avg[bw]|sadbw|insrw|extrw)")
LATER = re.compile(r"v\w+|popcnt|[lt]zcnt|andn|bextr|bls\w+|bzhi|mulx|pdep|pext|rorx|sarx|shlx|shrx|adcx|adox|crc32\w*|movbe|aes\w+|sha\w+")


def said(*command):
    return subprocess.run(command, check=True, capture_output=True, text=True).stdout


class Function:
    def __init__(self, name):
        self.name = name
        self.frame = 8  # the return address
        self.red = 0  # the deepest place below the stack pointer
        self.calls = set()


def functions(archive):
    """The functions of the archive; what is against the rules above goes to `faults`."""
    found, faults, f = {}, [], None
    for line in said("objdump", "-dr", "--no-show-raw-insn", archive).splitlines():
        if m := re.match(r"[0-9a-f]+ <(.+)>:$", line):
            f = found[m[1]] = Function(m[1])
            begun = False  # past the first instructions, which make the frame
        elif m := re.match(r"\s+[0-9a-f]+: (R_X86_64_\w+)\s+(\S+)", line):
            if m[1] == "R_X86_64_PLT32":
                f.calls.add(re.sub(r"^\.text\.|-0x4$", "", m[2]))
        elif m := re.match(r"\s+[0-9a-f]+:\t(\S+)\s*(.*)", line):
            op, args = m[1], m[2]
            if LATER.fullmatch(op) or re.search(r"%[yz]mm|%mm|%k[0-7]", args) or "%xmm" in args and not SSE2.fullmatch(op):
                faults.append("%s: past SSE2: %s %s" % (f.name, op, args))
            if op == "call" and args.startswith("*"):
                faults.append("%s: through a pointer: %s %s" % (f.name, op, args))
            below = [int(n, 16) for n in re.findall(r"-0x([0-9a-f]+)\(%rsp", args)]
            f.red = max([f.red] + below)
            if op == "push" or op == "sub" and args.endswith(",%rsp"):
                if begun or op == "sub" and not args.startswith("$0x"):
                    faults.append("%s: the stack pointer moves inside: %s %s" % (f.name, op, args))
                f.frame += 8 if op == "push" else int(args[3:].split(",")[0], 16)
            elif args.endswith(",%rsp") and op != "add":
                faults.append("%s: the stack pointer is set: %s %s" % (f.name, op, args))
            elif op in ("call", "ret") or op.startswith("j"):
                begun = True
    return found, faults


def strays(archive):
    """Places that a table of jumps names outside of the function whose table it is."""
    home = ""
    for line in said("objdump", "-r", archive).splitlines():
        if m := re.match(r"RELOCATION RECORDS FOR \[(.+)\]:$", line):
            home = m[1]
        elif home.startswith(".rodata.") and re.match(r"[0-9a-f]{16} ", line):
            place = line.split()[2].split("+")[0]
            if place != home.replace(".rodata", ".text", 1):
                yield "%s: a place of %s" % (home, place)


def promised(header):
    """What the header says: the bytes of code and constants, and of stack for each call, at most."""
    with open(header, encoding="utf-8") as f:
        text = re.sub(r"\n \*\s*", " ", f.read()).replace(",", "")
    code = re.search(r"(\d+) KB of code and constants", text)
    deep = re.search(r"mount (\d+) bytes format (\d+) delete (\d+) list (\d+)", text)
    if not (code and deep):
        sys.exit("%s: does not say how much code and stack there is" % header)
    return 1000 * int(code[1]), dict(zip(CALLS, map(int, deep.groups())))


def stack(found, name, above=()):
    """The most that a call of `name` uses, its return address with it."""
    if name in above:
        sys.exit("%s: calls itself" % name)
    if name in NEEDS:
        return 8
    f = found[name]
    return f.frame + max([f.red] + [stack(found, callee, above + (name,)) for callee in f.calls])


def main():
    if len(sys.argv) != 3:
        sys.exit("usage: archive.py ARCHIVE HEADER")
    archive, (code, most) = sys.argv[1], promised(sys.argv[2])
    needs = set(re.findall(r"^ +U (\S+)$", said("nm", "-u", archive), re.M))
    sizes = [row.split()[:3] for row in said("size", archive).splitlines()[1:]]
    text, data, bss = (sum(int(row[k]) for row in sizes) for k in range(3))
    found, faults = functions(archive)
    if not needs <= NEEDS:
        faults.append("needs also: " + " ".join(sorted(needs - NEEDS)))
    if data or bss:
        faults.append("%d bytes of data and %d of zeros that are written" % (data, bss))
    if text > code:
        faults.append("%d bytes of code and constants, %d promised" % (text, code))
    red = {name for name, f in found.items() if f.red}
    faults += ["%s: %d bytes below the stack pointer" % (name, found[name].red) for name in sorted(red) if found[name].red > RED_ZONE]
    faults += strays(archive)
    faults += ["%s: not there" % name for name in CALLS if name not in found]
    if not faults:
        deep = {name: stack(found, name) for name in CALLS}
        faults += ["%s: %d bytes of stack, %d promised" % (name, n, most[name]) for name, n in deep.items() if n > most[name]]
    if faults:
        sys.exit("\n".join(faults))
    print("needs %s; %d bytes of code and constants, SSE2; red zone: %s; stack at most: %s bytes" % (
        " and ".join(sorted(needs)), text, ", ".join(sorted(red)) or "not used", ", ".join("%s %d" % (n.replace("store_", ""), k) for n, k in deep.items())))


main()
