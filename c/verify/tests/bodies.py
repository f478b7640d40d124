"""Puts small bodies before those of functions of the library. Each must be refused for the reason
beside it, or if there is none, pass: bodies.py LEVEL COMPILER."""
import functools
import os
import pathlib
import re
import subprocess
import sys
import tempfile
from rows import Row, count, refusal

C = pathlib.Path(__file__).resolve().parent.parent.parent
LIBRARY = 'libkomihash_rattle.so.1'
# A name, a function (or v5_rand_next), why it is refused, if it is, and a body, before which `red
# zone` may stand. If the name of a case and `..` come before the reason, only such cases are run.
# `pad` is a whole body of that function, with something before its loop, in each turn, and after.
# What follows `turn:` or `next:` goes to where a turn of the function's own loop begins, or ends,
# and names its registers as ROLES does.
X86 = '''
.macro after code; push rdi; push rsi; push rdx; call body; pop rdx; pop rsi; pop rdi; \\code
    1: ret; .endm
.macro word; mov r10, [rdi + 8*r9]; mov [rdx + 8*r9], r10; inc r9; .endm
.macro pad before, in, after; mov r8, rsi; shr r8, 3; xor eax, eax; cmp rcx, r8; jbe .Lend
    \\before; xor r9d, r9d; .Lturn: cmp r9, r8; jae .Lrest; word; \\in
    jmp .Lturn; tail "\\after"; .endm
.macro step at; mov rax, [rdi]; mul qword ptr [rdi + 8]; xor rax, rdx; add rax, r8; mov [rdi], rax
    mov [\\at], rax; not r8; add rdx, r8; not r8; add [rdi + 8], rdx; .endm
.macro fill in, before; mov r9, rdx; mov r8, 0x5555555555555555; \\before
    1: cmp r9, 8; jb 2f; step rsi; \\in; add rsi, 8; sub r9, 8; jmp 1b; 2: mov rdx, r9; .endm
.macro tail after; .Lrest: \\after; xor r10d, r10d; cmp r10, rsi; adc r10d, 0; and esi, 7
    je .Lstore; .Lbyte: shl r10, 8; lea r11, [rdi + 8*r8]; movzx r11d, byte ptr [r11 + rsi - 1]
    or r10, r11; dec esi; jne .Lbyte; .Lstore: mov [rdx + 8*r8], r10; lea rax, [r8 + 1]
    .Lend: ret; .endm
''', '''
# Returns, calls, and ways through code.
a changed return address||not the caller|call 1f; nop; jmp body; 1: inc qword ptr [rsp]; ret
a return to the caller's caller||not the caller|call 1f; jmp body; 1: call 2f; ret; 2: pop rax; ret
a call in a call|||call 1f; jmp body; 1: call 2f; ret; 2: ret
a call of the next||no meaning|xor eax, eax; call 1f; 1: inc eax; cmp eax, 2; jae 1f; ret; 1:
code where nothing can run||not known|jmp 1f; .pushsection .rodata; 1: jmp body; .popsection
a loop without end||more than 20000|1: jmp 1b
a loop that splits in each turn|v5_save|, 5 pending..result: found 0x1|xor r8d, r8d; 1: inc r8d;
    bt edx, r8d; jnc 2f; cmp r8d, 2; jne 2f; mov eax, 1; ret; 2: cmp r8d, 2; jne 1b
many jumps|v5_save|, 5 pending..result: found 0x1|.irp k, 1,2,3,4,5,6,7,8,9,10; cmp rdx, 50 + \\k;
    je 8f; 8: ; .endr; cmp rdx, 40; jne body; mov eax, 1; ret
a number that splits at the end|v5_save|, 5 pending..in no array|mov r10, rdx; and r10d, 31;
    mov byte ptr [rdi + 8*r10 + 144], 0
one by one of 64 values|v5_save|, 5 pending..result: found 0x1|mov r10, rdx; and r10d, 63;
    cmp byte ptr [rdi + r10], 0; cmp r10, 63; jne body; mov eax, 1; ret
a number of four values|||mov r10, rdi; and r10d, 24; sub rsp, r10; add rsp, r10
a number by the room|v5_save|, 5 pending..|cmp rdx, 5000; cmovb r10, rdx
a frame by the room|v5_save|, 5 pending..|mov r10, rdx; and r10d, 8; sub rsp, r10; add rsp, r10
a frame by the room and a carry|v5_save|, 5 pending..|sub rsp, 64; mov r10, rdx; and r10d, 8;
    lea r11, [r10 - 1]; cmp r10d, 9; adc rsp, r11; sub rsp, r10; add rsp, 64
# The stack, the red zone and registers of the caller.
the red zone|||red zone; mov [rsp - 128], rdi; mov rdi, [rsp - 128]
below the red zone||below the stack pointer|red zone; mov [rsp - 129], al
a red zone that stays|||red zone; mov [rsp - 64], rdi; push rax; pop rax; mov rdi, [rsp - 64]
a red zone moved||not written|red zone; mov [rsp - 121], al; pop rax; push rax; mov al, [rsp - 121]
all of the stack|||sub rsp, 4096; add rsp, 4096
more than the stack||out of the stack|sub rsp, 4097; add rsp, 4097
below all of the stack||in no array|red zone; sub rsp, 4096; mov [rsp - 1], al; add rsp, 4096
a step over the caller's frame||out of the stack|lea rsp, [rsp + 256]; lea rsp, [rsp - 256]
a small step above the call||out of the stack|lea rsp, [rsp + 9]; lea rsp, [rsp - 9]
a stack that is lower at the end||not where the caller left it|push [rsp]
a word half below the stack||below the stack pointer|mov [rsp - 4], rdi
a byte above the call||in no array|mov [rsp + 8], al
a byte that was popped||not written|push rdi; pop rax; sub rsp, 8; mov rdi, [rsp]; add rsp, 8
a last byte that was popped||not written|
    push rdi; pop rax; sub rsp, 8; cmp byte ptr [rsp + 7], al; add rsp, 8
a byte far below||not written|
    sub rsp, 256; mov [rsp], al; add rsp, 256; sub rsp, 256; mov al, [rsp]; add rsp, 256
a vector of one byte further||not aligned to 16|sub rsp, 40; movaps [rsp + 1], xmm0; add rsp, 40
a vector where an array begins||not aligned to 16|movaps xmm0, [rdi]
half a vector that was not written||not written|
    sub rsp, 24; movq [rsp], xmm0; punpcklqdq xmm0, [rsp]; add rsp, 24
a return address that a loop loses|v5_pad|any n..not written|pad "add rsp, 8", "", "sub rsp, 8"
rbx after a turn|v5_pad|any n..rbx of the caller|pad "", "cmp r9, 400; jne .Lturn; bts rbx, 63", ""
rbx if refused|v5_pad|any n..rbx of the caller|
    test rcx, rcx; jne body; bts rbx, 63; xor eax, eax; ret
rbx by the room|v5_save|, 5 pending..rbx of the caller|cmp rdx, 5000; jne body; bts rbx, 63
rbx by one room|v5_save|, 5 pending..rbx of the caller|cmp rdx, 5000; je 1f; jmp body;
    1: bts rbx, 63
# Memory, of which ARRAYS has the arguments.
what may be written||in no array|.pushsection .data; 2: .quad 0; .popsection; mov rax, [rip + 2b]
a constant at an odd address|||mov eax, [rip + __ehdr_start + 1]; cmp eax, 0x02464c45; je body; ud2
a constant over the end||in no array|.hidden __etext; lea rax, [rip + __etext]; mov rax, [rax - 4];
    shr rax, 32; je 1f; xor eax, eax; ret; 1:
a long copy||in no array|push rdi; sub rsp, 320; lea rsi, [rip + __ehdr_start]; mov rdi, rsp;
    mov ecx, 600; rep movsb; add rsp, 320; pop rdi
a copy by the room|v5_save|, 5 pending..in no array|mov ecx, edx; and ecx, 1; rep movsb
an address of 32 bits||not known|.byte 0x67; lea rax, [-1]
a byte of an old stream|v5_init|not written|mov al, [rdi + 80]
a byte of a stream that is returned|v5_start|not written|mov al, [rdi + 80]
a vector over the end|v5|0 modulo..in no array|movups xmm0, [rdi + 177]
a byte that may not be there|v5_write|any n..in no array|
    turn: 8: cmp [BYTES], al; cmp LEFT, 127; jbe 9f; next: jmp 8b; 9:
a byte after the last block|v5_write|any n..in no array|
    mov r9, [rdi + 64]; lea r10, [rdx + r9]; and r10, -64; sub r10, r9; mov al, [rsi + r10]
the last byte of the last block|v5_write|any n..|
    mov r9, [rdi + 64]; lea r10, [rdx + r9]; and r10, -64; sub r10, r9; mov al, [rsi + r10 - 1]
a turn that writes after the generator|v5_rand_fill|any n..in no array|turn: cmp INDEX, 500; jne 1f;
    mov byte ptr [rdi + 16], 0; 1:
a word that a loop loses|v5_pad|any n..not written|
    pad "sub rsp, 8; cmp rsi, 5000; jb 1f; mov [rsp], rsi; 1:", "", "mov r11, [rsp]; add rsp, 8"
a write where there may be no room|v5_save|in no array|mov byte ptr [rsi], 0
a refusal that writes|v5_save|in no array|lea rax, [rdx - 1]; cmp rax, 130; jae body; mov [rsi], al
a refused text that is written|v5_resume|, 0 bytes..of stream were written|mov byte ptr [rdi], 0
a text of another version that is written|v5_resume|, 68 bytes..of stream were written|
    cmp byte ptr [rsi], 4; jne body; mov byte ptr [rdi], 0; xor eax, eax; ret
a long text that is written|v5_resume|any n..of stream were written|
    cmp rsi, 5000; jne body; mov byte ptr [rdi], 0
a long one|v5_pad|any n..in no array|cmp rcx, 1; jne body; mov byte ptr [rdx], 0
a byte after the words|v5_pad|any n..in no array|
    after "test rax, rax; je 1f; cmp rsi, 305; jne 1f; mov byte ptr [rdx + 8*rax], 0"
a byte after the message|v5_unpad|8, (7, 1)..in no array|
    after "cmp rax, -1; je 1f; cmp rsi, 33; jne 1f; mov byte ptr [rdx + rax], 0"
# What jumps and addresses depend on.
a jump by a register of the caller|v5_save|, 5 pending..depends on r10|test r10, r10; je 1f; 1:
flags of a shift|v5_save|, 5 pending..flag z is read|
    mov rcx, rdx; cmp rax, rax; shl r8, cl; jne 1f; 1:
a flag that bt leaves undefined||flag z is read|bt edi, 0; ja 1f; 1:
a carry of the caller||flag c is read|adc r8d, 0
the highest bit of 0||depends on undefined|
    mov rcx, -1; xor eax, eax; bsr ecx, eax; shr rcx, 32; jne 1f; 1:
a highest bit of 64 of 0|v5_save|, 5 pending..depends on undefined|
    mov rcx, -1; xor eax, eax; bsr rcx, rax; inc rcx; jne 1f; 1:
a jump by a low half|v5|6 modulo..depends on low|next: test rax, rax; je 1f; 1:
a jump by a lane|v5|6 modulo..depends on value|next: test LANE, LANE; je 1f; 1:
a jump by a factor|v5_rand_fill|any n..depends on s1|turn: cmp INDEX, 300; jne 1f;
    test FACTOR, FACTOR; je 1f; 1:
a jump by what a loop lost|v5_pad|any n..depends on undefined|
    pad "", "cmp rsi, 5000; jne .Lturn; test rax, rax; je 1f; 1: mov rax, r10", ""
a jump by a pending byte|v5_write|any n..depends on pending|cmp rdx, 300; jne body;
    cmp qword ptr [rdi + 64], 5; jne body; cmp byte ptr [rdi], 1; je 1f; 1:
a jump by four pending bytes|v5_save|, 5 pending..depends on pending|
    cmp dword ptr [rdi], 0; je 1f; 1:
a jump by the seed|v5|0 modulo..depends on seed|cmp rdx, 5; jb 1f; 1:
a jump by the top bit|v4_save|, 5 pending..depends on top bit|cmp byte ptr [rdi + 137], 1; jb 1f; 1:
one of an address|v5_save|, 5 pending..depends|mov al, [rdi + 72]; and eax, 1; mov al, [rdi + rax]
where in its page the library is|||lea rax, [rip + __ehdr_start]; test eax, 4095; je body; not rdi
jumps by where the stack is|||test spl, 16; je 1f; test spl, 32; je 1f; 1:
a jump by where the library is|||lea rax, [rip + __ehdr_start]; test eax, 4096; jne 1f; 1:
# What is returned and stored, of which OUTPUTS has more.
one that needs less room|v5_save|, 0 pending..in no array|cmp rdx, 130; jb body; mov edx, 131
one that needs more room|v5_pad|any n..before the end|mov r8, rsi; shr r8, 3; inc r8; cmp rcx, r8;
    ja body; xor eax, eax; ret
another result of one|v5_pad|any n..length: found 0x1|test rcx, rcx; jne body; mov eax, 1; ret
no text, and a bool of 2|v5_resume|, 0 bytes..result: found 0x2|mov eax, 2; ret
a word of 0|v5_unpad|, 0 bytes, (0, 0)..|nop
a word of 0 after another|v5_unpad|, 8 bytes, (0, 0)..|nop
a word of 1|v5_unpad|, 0 bytes, (0, 1)..|nop
one wrong in a high bit||does not have|mov rax, [rdi]; bts rax, 63; mov [rdi], rax
one wrong by where the stack is||does not have|test spl, 16; je body; not byte ptr [rdi]
another s1|v5_rand_init|s1: found|call body; bts rax, 63; ret
another s2|v5_rand_init|s2: found|call body; bts rdx, 63; ret
another s2 from two seeds|v5_rand_init_with_extra_seed|s2: found|call body; inc rdx; ret
another s1 from words|v5_rand_init_words|s1: found|call body; inc rax; ret
another s2 from words|v5_rand_init_words|s2: found|call body; inc rdx; ret
an old lane|v5_write|any n..at 72|push rdi; push [rdi + 72]; call body; pop rax; pop rdi;
    mov [rdi + 72], rax; ret
one after a long write to five bytes|v5_write|any n..at 0|
    xor eax, eax; cmp rdx, 300; jne 2f; cmp byte ptr [rdi + 64], 5; sete al; 2: push rax; push rdi;
    call body; pop rdi; pop rax; test eax, eax; je 1f; not byte ptr [rdi]; 1: ret
a write that takes bytes before its own|v5_write|any n..in no array|
    cmp qword ptr [rdi + 64], 5; jne body; lea rax, [rdx + 5]; cmp rax, 128; jb body; test al, 64;
    jne body; mov rdx, rax; sub rsi, 5; xor eax, eax; mov [rdi], rax; mov [rdi + 64], rax; jmp body
a word after the last one|v5_unpad|8, (7, 1)..in no array|
    lea r8, [8*rsi]; cmp rcx, r8; jb body; dec rsi; xor r9d, r9d; 1: word; cmp r9, rsi; jne 1b;
    word; lea rax, [8*r9]; ret
# Multiplications.
a factor in place of another||does not have|mov rax, [rdi]; mul rax; mov rcx, rdx;
    add rdx, [rdi + 8]; mov r8, -0x5555555555555556; add rdx, r8; mov [rdi + 8], rdx;
    xor rax, rcx; not r8; add rax, r8; mov [rdi], rax; ret
an old generator|v5_rand_fill|any n..does not have|
    push r15; mov r15, [rdi]; call body; pop r15; ret;
    turn: cmp INDEX, 500; jne 1f; mov FACTOR, r15; 1:
one made twice||has made already|mov rax, [rdi]; mul qword ptr [rdi + 8]
# Loops that are right.
a loop|v5_pad|any n..|pad "", "", ""
a generator in memory|v5_rand_fill|any n..|fill ""
half a vector that stays|v5_pad|any n..|
    pad "movq xmm1, rdi; punpcklqdq xmm1, xmm1", "", "punpckhqdq xmm1, xmm1; movq rdi, xmm1"
arrays that don't overlap|v5_pad|any n..|mov r8, rsi; shr r8, 3; cmp rcx, r8; jbe body; mov r8, rdx;
    sub r8, rdi; cmp r8, rsi; jae body; xor eax, eax; ret
words that don't overlap|v5_unpad|8, (7, 1)..|lea r8, [8*rsi]; cmp rcx, r8; jb body;
    mov r9, rdx; sub r9, rdi; cmp r9, r8; jae body; xor eax, eax; ret
# Loops that are wrong for one length, or from one on.
a write of 150 bytes|v5_write|any n..the stream at|
    push rdx; call body; pop rdx; ret; next: cmp qword ptr [rsp + FRAME], 150; jne 1f; not LANE; 1:
a hash of 270 bytes|v5|6 modulo..does not have|push rsi; call body; pop rsi; ret;
    next: cmp qword ptr [rsp + FRAME], 270; jne 1f; not LANE; 1:
a word of 160 bytes of one|v5_rand_fill|any n..bytes: found|
    next: cmp COUNT, 20; jne 1f; not byte ptr [OUT + 8*INDEX - 8]; 1:
a word of 200 bytes|v5_pad|any n..bytes: found|
    pad "", "cmp rsi, 200; jne .Lturn; rol qword ptr [rdx + 8*r9 - 8], 8", ""
one wrong from byte 3,200 on|v5_pad|any n..many values|pad "", "cmp r9, 400; jne .Lturn; inc r9", ""
one wrong from 16 TiB on|v5_pad|any n..many values|
    pad "", "mov r10, 1 << 41; cmp r9, r10; jne .Lturn; inc r9", ""
a word more for one length|v5_pad|any n..the rest|mov r8, rsi; shr r8, 3; xor eax, eax; cmp rcx, r8;
    jbe .Lend; mov r11, r8; and r11, -2; xor r9d, r9d; .Lturn: cmp rsi, 5000; je 4f;
    5: cmp r9, r11; jae .Lodd; word; word; jmp .Lturn; 4: cmp r9, r11; jne 5b; word;
    .Lodd: test r8b, 1; je .Lrest; word; tail
one that leaves its loop there|v5_pad|any n..the rest|pad "", "cmp r9, 400; je .Lrest", ""
a loop begun late|v5_pad|any n..many values|pad "cmp rsi, 304; mov r9d, 1; je .Lturn", "", ""
a loop that may run over the end|v5_pad|any n..in no array|pad "cmp r8, 16; jb 1f; xor r9d, r9d;
    word; 2: word; word; cmp r9, r8; jne 2b; jmp .Lrest; 1:", "", ""
two words in each turn after the first|v5_rand_fill|any n..in no array|
    mov r10, rdx; mov r11, rdx; shr r11, 3; mov r8, 0x5555555555555555; step rsi; mov r9d, 1;
    1: cmp r9, r11; je 2f; step rsi+8*r9; step rsi+8*r9+8; add r9, 2; jmp 1b;
    2: lea rsi, [rsi + 8*r9]; and r10d, 7; mov rdx, r10
turns of 32 words, after which up to 15 are copied|v5_pad|any n..in no array|
    mov r8, rsi; shr r8, 3; xor eax, eax; cmp rcx, r8; jbe .Lend; mov r11, r8; and r11, -32;
    xor r9d, r9d; .Lturn: cmp r9, r11; jae 2f; .rept 32; word; .endr; jmp .Lturn;
    2: mov r10, r8; sub r10, r9; test r10b, 15; je .Lrest; word; jmp 2b; tail
one that compares 32 bits|v5_pad|any n..the rest|pad "", "cmp r9d, r8d; je .Lrest", ""
a wrong word before a loop|v5_pad|any n..bytes: found|
    pad "xor r9d, r9d; word; not byte ptr [rdx]; jmp .Lturn", "", ""
a wrong word before the loop of a generator|v5_rand_fill|any n..bytes: found|
    fill "", "step rsi; not byte ptr [rsi]; add rsi, 8; sub r9, 8"
a call that begins at the exit|v5_pad|any n..the rest|pad "cmp rsi, 200; je .Lrest", "", ""
a long one that is copied|v5_pad|any n..a turn of a call that is refused|mov rcx, -1; pad "", "", ""
one that ends in a turn|v5_pad|any n..before the end|pad "", "cmp r9, 400; je .Lend", ""
one that turns again after the last|v5_pad|any n..after the last|
    pad "", "", "cmp rsi, 304; je .Lturn"
a turn of nothing|v5_pad|any n..takes nothing|
    pad "xor r9d, r9d; jmp 1f", "1: cmp r9, 400; je 1b", ""
two registers that turns change|v5_pad|any n..many values|
    pad "", "mov rax, r10; not rax", "xor r10, rax; add r8, r10"
one that a turn changes|v5_rand_fill|any n..does not have|
    fill "cmp r9, 400; jne 3f; not byte ptr [rdi]; 3:"
half a vector that a turn changes|v5_pad|any n..in no array|
    pad "movq xmm1, rdi; punpcklqdq xmm1, xmm1; movq xmm2, rsi", "cmp r9, 400; jne .Lturn;
    punpcklqdq xmm1, xmm2", "punpckhqdq xmm1, xmm1; movq rdi, xmm1"
the word before the last one|v5_rand_fill|any n..s1|
    after "test dl, 7; jne 1f; movq [rdi], xmm7"; turn: movq xmm7, FACTOR
the words of a generator exchanged at the end|v5_rand_fill|any n..s1|fill ""; cmp r9, 3; jne body;
    mov r10, [rdi]; mov r11, [rdi + 8]; mov [rdi], r11; mov [rdi + 8], r10
# Calls that end before their loops, or in the wrong state.
a hash that is not finished|v5|4 modulo..products, and not|cmp rsi, 300; jne body; xor eax, eax; ret
a write to 63 bytes that ends early|v5_write|any n..before the end|
    cmp qword ptr [rdi + 64], 63; jne body; cmp rdx, 400; jne body; ret
a write of nothing|v5_write|any n..before the end|cmp rdx, 60; jne body; xor eax, eax;
    mov [rdi], rax; mov [rdi + 8], rax; mov [rdi + 64], rax; mov byte ptr [rdi + 136], 1; ret
a write that takes nothing of 1,000 blocks|v5_write|any n..before the end|
    cmp rdx, 64000; jne body; cmp qword ptr [rdi + 64], 0; jne body; mov byte ptr [rdi + 136], 1;
    ret
a refusal|v5_pad|any n..before the end|
    cmp rsi, 200; jne body; cmp rcx, 26; jb body; xor eax, eax; ret
'''
V2 = X86[0], X86[1] + '''
an instruction of newer processors||not known for x86-64|palignr xmm0, xmm0, 1
a jump by a high half|v5|0 modulo..depends on high|call body; test rdx, rdx; je 1f; 1: ret
'''
V3 = X86[0], '''
an instruction of newer processors||not known for x86-64-v3|vpternlogq ymm0, ymm0, ymm0, 1
a vector over a generator||in no array|vmovups xmm0, [rdi]; vmovups [rdi], ymm0; vzeroupper
a vector on the stack|||
    vmovups ymm0, [rip + __ehdr_start]; sub rsp, 40; vmovups [rsp], ymm0; add rsp, 40
'''
ARM = '''
.macro after kept, code; stp \\kept, x30, [sp, -16]!; bl body; ldp \\kept, x30, [sp], 16; \\code
    1: ret; .endm
.macro whole length, code; mov x9, x2; stp x0, x9, [sp, -16]!; stp x29, x30, [sp, -16]!; bl body
    ldp x29, x30, [sp], 16; ldp x0, x9, [sp], 16; ldr x10, [x0, 64]; cbnz x10, 1f
    cmp x9, \\length; b.ne 1f; \\code; 1: ret; .endm
''', '''
a frame not aligned||not aligned to 16|sub sp, sp, 8; str x0, [sp]; add sp, sp, 8
a frame of 15 bytes||not aligned to 16|sub sp, sp, 15; strb w0, [sp]; add sp, sp, 15
a load from a frame not aligned||not aligned to 16|sub sp, sp, 24; mov x10, sp; str x9, [x10];
    ldr x9, [sp]; add sp, sp, 24
a store of the register that it moves||no meaning|mov x9, sp; .inst 0xf8008529
a store of the register that it moves first||no meaning|mov x9, sp; .inst 0xf8008d29
a store of half the register that it moves||no meaning|mov x9, sp; .inst 0xb8004529
a hint that changes x30||not known|hint 25
another one||not known|hint 7
a word below the stack||below the stack pointer|red zone; stur w0, [sp, -4]
a small step above the call||out of the stack|add sp, sp, 1; sub sp, sp, 1
a byte above the call||in no array|strb w0, [sp]
a number that splits|v5_save|, 5 pending..result: found|and x10, x2, 8; add x9, x0, x10; ldr x11,
    [x9], 8; sub x9, x9, x10; sub x9, x9, x0; cmp x9, 16; b.eq body; mov x0, 77; ret
a jump by a register of the caller|v5_save|, 5 pending..depends on x9|cbz x9, 1f; nop; 1:
a low half made twice||has made already|ldp x9, x10, [x0]; mul x11, x9, x10; mul x11, x9, x10
a high half made twice||has made already|
    ldp x9, x10, [x0]; umulh x11, x9, x10; umulh x11, x9, x10
a product|v5_rand_fill|any n..products|cmp x2, 200; b.ne body; ldp x9, x10, [x0]; mul x9, x9, x10
a stack that is lower at the end||sp is lost|sub sp, sp, 16
a changed return address||not the caller|eor x30, x30, 4
a return to the next instruction but one||not the caller|stp x0, x30, [sp, -16]!; bl 1f; nop;
    ldp x0, x30, [sp], 16; b body; 1: add x30, x30, 4; ret
more than the stack||out of the stack|sub sp, sp, 4096; sub sp, sp, 16; add sp, sp, 4096;
    add sp, sp, 16
a byte that was popped||not written|str x0, [sp, -16]!; add sp, sp, 16; sub sp, sp, 16;
    ldr x0, [sp], 16
a call|||stp x0, x30, [sp, -16]!; bl 1f; ldp x0, x30, [sp], 16; b body; 1: ret
whole blocks that are wrong|v5_write|any n..the stream at 0|
    after x0, "ldr x9, [x0, 64]; cbnz x9, 1f; mov w9, 1; strb w9, [x0]"
a write of 64 bytes that takes 51|v5_write|any n..in no array|
    cmp x2, 64; b.ne body; ldr x9, [x0, 64]; cmp x9, 13; b.ne body; mov x2, 51
one block that is wrong|v5_write|any n..the stream at 0|whole 51, "strb w0, [x0]"
three blocks that are wrong|v5_write|any n..the stream at 0|whole 179, "strb w0, [x0]"
x19 after three blocks|v5_write|any n..x19 of the caller|whole 179, "eor x19, x19, 1"
a loop that ends early|v5_write|any n..more bytes or fewer|
    turn: cmp LEFT, 4096; b.ne 1f; mov LEFT, 128; 1:
a flag that a turn changes|v5_write|any n..at 136|
    turn: cmp LEFT, 4096; b.ne 1f; strb wzr, [x0, 136]; 1:
a pending byte that a turn writes|v5_write|any n..at 0|
    turn: cmp LEFT, 4096; b.ne 1f; strb w0, [x0]; 1:
63 bytes more that are wrong|v5_write|any n..the stream at 0|
    after x0, "ldr x9, [x0, 64]; cmp x9, 63; b.ne 1f; strb w9, [x0]"
whole blocks of version 4|v4|0 modulo..|nop
5 bytes more that are wrong|v5_write|any n..the stream at 0|
    after x0, "ldr x9, [x0, 64]; cmp x9, 5; b.ne 1f; strb w9, [x0]"
a hash of 5 bytes more that is wrong|v5|5 modulo..hash: found/hash: not shown|
    after x1, "cmp x1, 261; b.ne 1f; mvn x0, x0"
'''
# The registers that a call must preserve, by the calling conventions of System V and of Arm, where
# x18 is the platform's, and the low halves of vectors are preserved. A bit of each is changed.
BITS = 63, 0, 32
SAVED = {'x86-64': [(one, f'bts {one}, {BITS[k % 3]}')
                    for k, one in enumerate('rbx rbp r12 r13 r14 r15'.split())],
         'armv8-a': [*((f'x{n}', f'eor x{n}, x{n}, 1 << {BITS[n % 3]}') for n in range(18, 30)),
                     *((f'd{n}', f'mov x9, 1 << {BITS[n % 3]}; dup v0.2d, x9; '
                                 f'eor v{n}.16b, v{n}.16b, v0.16b') for n in range(8, 16))]}
# Conditions by each flag, and what reads them.
FLAGS = {'x86-64': ('z z, s s, c c, l l', 'j_ 1f; 1:|set_ r8b|cmov_ r8, r9'),
         'armv8-a': ('z eq, s mi, c cs, l lt',
                     'b._ 1f; 1:|cset x9, _|csel x9, x9, x10, _|ccmp x9, x10, 0, _')}
# What leaves no flag defined if it is by a number that may be 0.
SHIFTS = 'shl r8, cl', 'shr r8, cl', 'sar r8, cl', 'rol r8, cl', 'shld r8, r9, cl'
# Arrays on x86-64: a function, the name of a case, and for each array, what may be done with bytes
# of it, the register of its address, how many there are, and instructions with `_` in its place.
ACCESS = {'read': 'cmp {} ptr [{}], 0', 'write': 'mov {} ptr [{}], 0', 'both': 'or {} ptr [{}], 0'}
ARRAYS = '''
v5|, 9 bytes|read rdi 9 rsi
v5|0 modulo|read rdi 192 rsi|read BYTES 280 LEFT: turn: cmp LEFT, 280; jne 1f; _; 1:
v5_init||write rdi 144
v5_write|, 9 bytes, 5 pending|both rdi 144|read rsi 9 rdx
v5_write|any n|both rdi 144|read rsi 1|read BYTES 150: turn: cmp LEFT, 150; jne 1f; _; 1:|
    read rsi+r9-1 1: after "mov r9, rdx; sub r9, [rdi + 64]; _"
v5_finish|, 5 pending, 1|read rdi 144
v5_save|, 5 pending|read rdi 144|write rsi 73: cmp rdx, 131; jb body; _
v5_resume|, 68 bytes|write rdi 144: after "test al, al; je 1f; _"|read rsi 68 rdx
v5_rand_next||both rdi 16
v5_rand_fill|, 5 bytes|both rdi 16|write rsi 5 rdx
v5_rand_fill|any n|both rdi 16|write OUT+8*INDEX 8: turn: cmp INDEX, 500; jne 1f; _; 1:
v5_pad|, 9 bytes|read rdi 9 rsi|write rdx 16: cmp rcx, 2; jb body; _
v5_pad|any n|read rdi 128 rsi
v5_unpad|, 8 bytes, (0, 1)|read rdi 16 8*rsi|both rdx 8: after "cmp rax, -1; je 1f; _"
v5_unpad|8, (0, 1)|read rdi 136 8*rsi
'''
# Wrong outputs on x86-64: a function, a case, and what is found wrong after which instructions.
OUTPUTS = '''
v5|, 9 bytes|hash: bts rax, 63
v5|0 modulo|hash: cmp rsi, 256; jne 1f; bts rax, 63|hash: cmp rsi, 256; je 2f; ret; 2:not rax
v5|7 modulo|hash: cmp rsi, 319; jne 1f; bts rax, 63
v5|, 256 bytes|hash: bts rax, 63
v5|, 319 bytes|hash: bts rax, 63
v5_init||at 0: not byte ptr [rdi]
v5_write|, 0 bytes, 5 pending|at 64: inc byte ptr [rdi + 64]
v5_write|, 3 bytes, 5 pending|at 136: not byte ptr [rdi + 136]|at 16: not byte ptr [rdi + 20]
v5_write|any n|at 0: cmp byte ptr [rdi + 64], 0; jne 1f; not byte ptr [rdi]|
    at 0: cmp byte ptr [rdi + 64], 63; jne 1f; not byte ptr [rdi]|
    at 0: cmp rdx, 100; jne 1f; not byte ptr [rdi]
v5_write|, 242 bytes, 5 pending|at 0: not byte ptr [rdi]|at 64: inc byte ptr [rdi + 64]
v5_finish|, 5 pending, 1|hash: xor al, [rdi + 143]
v5_finish|, 5 pending, 0|hash: not rax
v5_finish|, 0 pending, 1|hash: not rax
v5_save|, 5 pending|bytes: test al, al; je 1f; rol qword ptr [rsi + 4], 8|result: inc rax|
    result: bts rax, 40|result: cmp rax, 1; adc eax, 0|
    result: mov r8d, 7; cmp rdx, 5000; cmovl rax, r8|
    result: mov r8d, 7; cmp rdx, 5000; cmovge rax, r8|
    result: mov r8d, 7; cmp rdx, 5000; cmovl r8, rax; mov rax, r8
v5_resume|, 68 bytes|at 137: test al, al; je 1f; or byte ptr [rdi + 137], 2|result: or eax, 2|
    result: or al, 128|result: test al, al; jne 1f; inc eax
v5_resume|, 131 bytes|at 56: test al, al; je 1f; not byte ptr [rdi + 62]
v5_rand_next||output: bts rax, 63|s1: not byte ptr [rdi + 7]|s2: not byte ptr [rdi + 15]
v5_rand_fill|, 0 bytes|s1: inc byte ptr [rdi]
v5_rand_fill|, 16 bytes|bytes: rol qword ptr [rsi], 8|s2: not byte ptr [rdi + 8]
v5_rand_fill|any n|s1: cmp rdx, 256; jne 1f; mov [rdi], dl|s1: cmp rdx, 383; jne 1f; mov [rdi], dl|
    bytes: cmp rdx, 255; jne 1f; not byte ptr [rsi + 254]
v5_rand_fill|, 255 bytes|bytes: not byte ptr [rsi + 254]|s1: inc byte ptr [rdi]
v5_pad|, 9 bytes|bytes: test al, al; je 1f; rol qword ptr [rdx], 8|
    length: test rax, rax; je 1f; bts rax, 63
v5_pad|any n|length: cmp rsi, 256; jne 1f; neg rax|length: cmp rsi, 383; jne 1f; neg rax|
    bytes: test rax, rax; je 1f; cmp rsi, 304; jne 1f; not byte ptr [rdx + 304]
v5_pad|, 304 bytes|length: inc rax|bytes: test rax, rax; je 1f; not byte ptr [rdx + 303]
v5_unpad|, 24 bytes, (7, 1)|
    bytes: cmp rax, 31; jne 1f; mov r8, [rdx]; mov r9, [rdx + 16];
    mov [rdx], r9; mov [rdx + 16], r8
v5_unpad|, 256 bytes, (0, 1)|length: bts rax, 63
v5_unpad|8, (0, 0)|length: cmp rsi, 40; jne 1f; inc rax|length: cmp rsi, 20; jne 1f; inc rax
v5_unpad|8, (7, 1)|length: cmp rsi, 33; jne 1f; or al, 128|
    length: cmp rsi, 48; jne 1f; or al, 128
'''
# Of instructions that are alike, the function, the reason, what comes before each in its body, what
# stands for `_`, and these: they change memory, load 16 bytes, also if they need fewer, or access
# memory by the stack pointer.
ALIKE = {
    'x86-64': ('v5_finish', ', 5 pending, 1..only read', 'cmp rdi, rdi; ', '[rdi + 64]', '''
        inc byte ptr _; dec byte ptr _; not byte ptr _; neg byte ptr _; add _, al; or _, al
        adc _, al; and _, al; sub _, al; xor _, al; rol byte ptr _, 1; shl byte ptr _, 1
        shr byte ptr _, 1; sar byte ptr _, 1; shld _, rax, 1; sete byte ptr _; mov _, al
        movups _, xmm0; movdqu _, xmm0; movq _, xmm0'''),
    'x86-64-v3': ('', 'in no array', '', '[rdi + 1]', '''
        vpxor xmm0, xmm0, _; vxorps xmm0, xmm0, _; vpaddq xmm0, xmm0, _; vmovdqu xmm0, _
        vpunpcklqdq xmm0, xmm0, _; vpunpckhqdq xmm0, xmm0, _; vunpckhpd xmm0, xmm0, _
        vbroadcastf128 ymm0, _; vinserti128 ymm0, ymm0, _, 1; vblendps xmm0, xmm0, _, 0'''),
    'armv8-a': ('', 'not aligned to 16', 'sub sp, sp, 8; ', 'sp', '''
        ldr x9, [_, x10]; ldr x9, [_], 16; ldr q0, [_]; ldrb w9, [_]; ldrh w9, [_]
        ldur x9, [_, 1]; ldurb w9, [_, -1]; ldp x9, x10, [_]; ldp x9, x10, [_], 16
        str x9, [_, x10]; str x9, [_, -16]!; str q0, [_]; strb w9, [_]; strh w9, [_]
        stur x9, [_, 1]; stp x9, x10, [_]; stp x9, x10, [_, -16]!''')}
LOOPS = {'v5': 'komi_hash_of_blocks_v5', 'v5_rand_fill': 'komihash_v5_rand_fill',
         'v5_write': 'komi_stream_complete_blocks_v5'}
# The registers of these loops, whatever the compiler chose: what is multiplied, a lane, the address
# of the bytes that are read, and how many are left; in a fill the address, the index of the word,
# and how many words there are. FRAME is how far above the stack pointer a body's last push lies.
ROLES = {'FACTOR': r'mulx?q\t%(\w+)', 'LANE': r'addq\t%(\w+), %', 'BYTES': r'\t56\(%(\w+)\)',
         'LEFT': r'(?:cmpq\t\$\d+, %|sub\t\w+, )(\w+)(?:\n\tja|, #128)',
         'OUT': r'\(%(\w+),%\w+,8\)', 'INDEX': r'\(%\w+,%(\w+),8\)',
         'COUNT': r'cmpq\t%\w+, %(\w+)\n\tjne'}
OUTPUTS += 'v5_start||address of the struct: bts rax, 63' + ''.join(
    f'|at {k & -8}: not byte ptr [rdi + {k}]' for k in (*range(7, 136, 8), 136))
# Assembly, marks after which bodies begin, the syntax of bodies and of the rest, macros and rows.
KINDS = {'x86-64': ('x86_64', '\tendbr64\n', '.intel_syntax noprefix\n', '.att_syntax\n', V2),
         'x86-64-v3': ('x86_64_v3', '\tendbr64\n', '.intel_syntax noprefix\n', '.att_syntax\n', V3),
         'armv8-a': ('aarch64', '\thint\t#34\n', '', '', ARM)}


def table(level):
    """The name, function, reason and body of each row."""
    return [*lines(KINDS[level][-1][1]),
            *([f'{one} of the caller', '', f'{one} of the caller is lost', body]
              for one, body in SAVED.get(level, ())),
            *of_flags(*FLAGS.get(level, ('', ''))),
            *of_instructions(*ALIKE[level]),
            *([f'flags of {do}', 'v5_save', ', 5 pending..flag c is read',
               f'mov rcx, rdx; cmp rax, rax; {do}; jc 1f; 1:']
              for do in SHIFTS if level == 'x86-64'),
            *([*of_arrays(), *of_outputs()] if level == 'x86-64' else ())]


def lines(table):
    """The fields of each line of a table. Lines that begin with spaces continue the one before."""
    text = re.sub(r'(\|?)\n +', lambda found: found[1] or ' ', table)
    return [line.split('|') for line in text.split('\n') if line and line[0] != '#']


def of_flags(conditions, read):
    for flag, code in map(str.split, filter(None, conditions.split(', '))):
        for do in read.replace('_', code).split('|'):
            yield f'flag {flag} of the caller: {do}', '', f'flag {flag} is read', do


def of_instructions(function, reason, before, place, listed):
    for do in re.split('[;\n] *', listed.strip().replace('_', place)):
        yield f'{do} where it may not', function, reason, before + do


def of_outputs():
    for function, case, *wrong in lines(OUTPUTS):
        for what, do in (one.split(': ') for one in wrong):
            yield f'{function}, {case}: {do}', function, \
                f'{case}..{what}: found/{what}: not shown', f'after "{do}"'


def of_arrays():
    """For each array, the last byte, those that may not be reached or written, and jumps by it."""
    for function, case, *arrays in lines(ARRAYS):
        for words, _, body in (array.partition(': ') for array in arrays):
            kind, base, *sizes = words.split()
            ends, access = [f'{base} + {size}' for size in sizes], ACCESS[kind].format
            outside = 'in no array/bytes: the bytes [-' if kind == 'write' else 'in no array'
            rows = [(f'{kind} {base}', '', '; '.join(access('byte', f'{end} - 1') for end in ends)),
                    *((f'{kind} {place}', outside, access('byte', place))
                      for place in (f'{base} - 1', *ends)),
                    *((f'{kind} over {place}', outside, access('qword', f'{place} - 7'))
                      for place in (f'{base} + 6', *ends)),
                    *((f'a jump by {at}', 'depends on/no exit',
                       f'cmp byte ptr [{at}], 1; je 3f; 3:') for at in (base, f'{ends[-1]} - 1')
                      if kind != 'write' and function not in ('v5_resume', 'v5_unpad')),
                    *((f'write {place}', 'only read', ACCESS['both'].format('byte', place))
                      for place in (base, f'{ends[-1]} - 1') if kind == 'read')]
            for name, why, do in rows:
                yield f'{function}, {case}: {"turn " * body.startswith("turn")}{name}', function, \
                    f'{case}..{why}', (body or '_').replace('_', do)


def build(path, level, compiler, name, body):
    """Builds the library with a body before that of a function."""
    source, mark, begin, end, (macros, _) = KINDS[level]
    whole = (C / f'assembly/{source}.S').read_text()
    # Functions of the same code are one, which has two names.
    name = re.search(f'\nkomihash_{name} = komihash_(.*)|$', whole)[1] or name
    body, *parts = re.split('(?:^|; )(turn|next): ', body)
    for part, code in zip(parts[::2], parts[1::2]):
        loop = r'(?P<at>\.L\w+):\n(?P<turn>)(?P<loop>(?:.*\n)*?' \
            r'(?P<next>).*\n\t(?:j(?!mp)\w+|b\.hi)\t(?P=at)\n)'
        found = re.search(f'\n{LOOPS[name]}:\n(?P<before>(?:.*\n)*?){loop}', whole)
        at, pushes = found.start(part), found['before'].count('\tpushq\t')
        frame = sum(map(int, re.findall(r'subq\t\$(\d+), %rsp', found['before'])), 8 * pushes + 8)
        code = re.sub('|'.join(ROLES), lambda it: re.search(ROLES[it[0]], found['loop'])[1],
                      code.replace('FRAME', str(frame)))
        whole = f'{whole[:at]}{begin}{code}\n{end}{whole[at:]}'
    before, mark, after = re.split(f'(\nkomihash_{name}:\n.*\n{mark})', whole, 1)
    code = f'{begin}{macros}{end}{before}{mark}{begin}{body}\nbody:\n{end}{after}'
    subprocess.run([compiler, '-shared', '-nostdlib', '-Wl,-soname,' + LIBRARY, '-o', path,
                    '-x', 'assembler-with-cpp', '-'], input=code.encode(), check=True)


def found(path, level, compiler, function, body, among):
    """Why the library with a body is refused, if it is. It is built once."""
    red_zone = body.startswith('red zone')
    if not path.exists():
        path.parent.mkdir(parents=True, exist_ok=True)
        new = f'{path}.{os.getpid()}'
        build(new, level, compiler, function, body.removeprefix('red zone; '))
        os.replace(new, path)
    return refusal(path.read_bytes(), level, f'komihash_{function}', red_zone, among)


def rows(level, compiler, folder):
    for number, (name, function, reason, body) in enumerate(table(level)):
        function, (among, _, wanted) = function or 'v5_rand_next', reason.rpartition('..')
        path = pathlib.Path(folder, level, f'{number}', LIBRARY)
        yield Row(name, reason if wanted else 'None', functools.partial(
            found, path, level, compiler, function, body, among=among))


def main(level, compiler):
    with tempfile.TemporaryDirectory() as folder:
        return count(rows(level, compiler, folder))


if __name__ == '__main__':
    sys.exit(main(*sys.argv[1:]))
